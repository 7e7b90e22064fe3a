(= (mod y 3) 0)
