class Texts {
    static long twice(long n) { return n << 1; }
    public static void main(String[] args) {
        String s = "ab" + 'c' + -7 + twice(1L << 40) + true;
        System.out.println(s);
        Object o = s;
        switch (((String) o).length()) {
            case 2: System.out.println("two"); break;
            case 22: System.out.println(s.charAt(2));
            default: System.out.println("more");
        }
        try { Thread t = (Thread) o; } catch (ClassCastException e) { System.out.println("no thread"); }
    }
}
