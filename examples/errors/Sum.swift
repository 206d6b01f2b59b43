let sum = one + three
