/** Methods whose code changes its own frame alone. */
public class Numbers {
    /** Counts the steps of n to 1. */
    static int steps(int n) {
        int count = 0;
        while (n != 1) {
            if ((n & 1) == 0) {
                n = n >> 1;
            } else {
                n = 3 * n + 1;
            }
            count++;
        }
        return count;
    }

    /** Mixes the bits of a seed. */
    static long mixed(long seed, int rounds) {
        long h = seed ^ 23505;
        for (int i = 0; i < rounds; i++) {
            h = (h << 7) + (h >>> 9) - (h >> 3) * 31;
            h ^= (byte) i + (char) (i * 30000) + (short) (i * 12345);
            h = -h + (h > 0 ? 1 : 0);
        }
        return h;
    }

    /** Leads through two switches. */
    static int chosen(int n) {
        int sum = 0;
        for (int i = -2; i < n; i++) {
            switch (i) {
                case 0:
                    sum += 7;
                    break;
                case 1:
                    sum ^= 100;
                case 2:
                    sum -= 3;
                    break;
                case 4:
                    sum <<= 2;
                    break;
                default:
                    sum++;
            }
            switch (sum) {
                case -1000:
                    sum += 5;
                    break;
                case 10:
                    sum -= 30000;
                    break;
                case 115:
                    sum += 2000;
                    break;
                default:
                    sum += i;
            }
        }
        return sum;
    }

    /** A number that ldc2_w pushes. */
    static long least() {
        return Long.MIN_VALUE;
    }

    /** A number that ldc pushes. */
    static int leastInt() {
        return Integer.MIN_VALUE;
    }

    /** Writes what the methods answer, each behind its line of the program's output. */
    public static void main(String[] arguments) {
        System.out.println("run Numbers steps (I)I 0 2 | | 27 0 -> pc 33 | " + steps(27));
        System.out.println("run Numbers chosen (I)I 0 2 | | 9 0 0 -> pc 143 | " + chosen(9));
        System.out.println("run Numbers mixed (JI)J 0 6 | | 123456789L 0 10 0 0 0 -> pc 79 | " + mixed(123456789, 10) + "L");
        System.out.println("run Numbers least ()J 0 2 | | -> pc 3 | " + least() + "L");
        System.out.println("run Numbers leastInt ()I 0 1 | | -> pc 2 | " + leastInt());
    }
}
