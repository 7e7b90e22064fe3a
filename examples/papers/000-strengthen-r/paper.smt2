(and (= (mod y 2) 0) (<= 0 0))
