(and (<= t r) (=> (>= t r) (<= t (* 2 (div r 2)))))
