(= t u)
