class Switches {
    static String of(int n) {
        switch (n) {
            case -1: return "minus";
            case 1000000: return "million";
            default: return "other";
        }
    }
    static int table(int n) { switch (n) { case 1: case 2: return 20; case 3: return 30; default: return 0; } }
    public static void main(String[] args) {
        System.out.println(of(1000000));
        System.out.println(of(0));
        System.out.println(table(3) + table(2) + table(4));
        int k = 0;
        do { k += 2; if (k == 4) continue; } while (k < 6);
        System.out.println(k);
    }
}
