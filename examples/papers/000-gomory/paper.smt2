(= (mod w 3) 0)
