struct Point {
    var x: Int
    var y: Int

    func moved(by distance: Int) -> Point {
        return Point(x: x + distance, y: y)
    }
}
