(= b c)
