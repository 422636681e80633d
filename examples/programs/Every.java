class Every {
    static int n;
    static void f() { n = n; throw null; }
    public static void main(String[] args) {
        try { f(); } catch (NullPointerException e) { }
    }
}
