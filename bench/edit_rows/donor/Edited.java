abstract class Edited {
    static int f(int n) {
        Object o = n > 3 ? "three" : new int[n];
        return o instanceof String ? 3 : 70000;
    }

    static long k() {
        return 1L << 40;
    }
}
