(= (mod y 2) 0)
