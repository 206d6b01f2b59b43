let price = 1_200
let shipping = 80
