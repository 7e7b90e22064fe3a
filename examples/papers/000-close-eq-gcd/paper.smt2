(= (mod y 4) 0)
