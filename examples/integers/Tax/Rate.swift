let rate = 19
let base = price + shipping
