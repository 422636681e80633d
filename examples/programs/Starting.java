class Bad {
    static int n = 1 / Integer0.zero();
    static void use() {}
}
class Integer0 { static int zero() { return 0; } }
class Starting {
    public static void main(String[] args) {
        try { Bad.use(); } catch (ExceptionInInitializerError e) { System.out.println("failed"); }
        try { Bad.use(); } catch (NoClassDefFoundError e) { System.out.println("gone"); }
    }
}
