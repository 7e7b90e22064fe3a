(= (mod y 6) 0)
