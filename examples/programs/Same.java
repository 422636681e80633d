class Same {
    static final String KEPT = "kept";
    public static void main(String[] args) {
        StringBuilder b = new StringBuilder();
        String k = b.append("ke").append("pt").toString();
        System.out.println(k == KEPT);
        System.out.println(k.equals(KEPT));
        System.out.println("kept" == KEPT);
        Object o = new int[0];
        System.out.println(o.getClass() == new int[1].getClass());
        System.out.println(o.equals(args));
    }
}
