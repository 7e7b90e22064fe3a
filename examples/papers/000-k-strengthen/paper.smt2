(or (= (mod (+ y 1) 5) 0) (= (mod y 5) 0))
