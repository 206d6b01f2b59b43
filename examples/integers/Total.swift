let total = base + rate
