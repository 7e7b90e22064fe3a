(not (= t u))
