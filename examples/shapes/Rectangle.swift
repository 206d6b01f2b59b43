struct Rectangle {
    let corner: Point
    let width: Int
    let height: Int
    var name = "rectangle"
}

extension Rectangle {
    var area: Int { return width * height }

    func contains(point: Point) -> Bool {
        let right = corner.x + width
        let top = corner.y + height
        return point.x >= corner.x && point.x < right && point.y >= corner.y && point.y < top
    }
}
