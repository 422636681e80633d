interface Named { String name(); default String said() { return "a " + name(); } }
class Square implements Named { public String name() { return "square"; } }
class Names {
    public static void main(String[] args) {
        Named n = new Square();
        System.out.println(n.said());
        System.out.println(n instanceof Square);
    }
}
