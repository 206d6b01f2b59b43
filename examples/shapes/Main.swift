let origin = Point(x: 0, y: 0)

func report(shape: Rectangle) {
    if shape.contains(point: origin) {
        print(shape.name + " holds the origin")
    } else if shape.area > 100 {
        print("a large " + shape.name)
    } else {
        print(shape.area)
    }
}

func run() {
    var steps = 0
    while steps < 3 {
        let corner = origin.moved(by: steps * 10 - 5)
        report(shape: Rectangle(corner: corner, width: 12, height: 9))
        steps = steps + 1
    }
}
