abstract class Edited {
    static int f(int n) {
        try {
            if (n > 7) {
                return 7;
            }
            return 100000 / n;
        } catch (ArithmeticException e) {
            return -1;
        }
    }

    static void g() {
        h();
        h();
    }

    static void h() {
    }

    abstract void m();
}
