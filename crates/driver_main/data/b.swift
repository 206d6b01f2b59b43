let two = one + one
