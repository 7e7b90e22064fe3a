(= (mod x 2) 0)
