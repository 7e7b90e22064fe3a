(not (= a 1))
