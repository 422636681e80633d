abstract class Shape {
    static int made = 5; static { System.out.println("shapes"); }
    final int side; Shape(int side) { this.side = side; made++; }
    abstract int area();
}
class Cube extends Shape { Cube(int s) { super(s); } int area() { return 6 * side * side; } }
class Above {
    public static void main(String[] args) {
        Shape s = new Cube(3);
        System.out.println(s.area() + Shape.made);
    }
}
