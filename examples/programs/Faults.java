class Lost extends Exception { Lost(String m) { super(m); } }
class Faults {
    static int turn(int n) throws Lost {
        try {
            if (n == 0) throw new Lost("nought");
            return 10 / n;
        } finally {
            System.out.println("turn");
        }
    }
    public static void main(String[] args) {
        try { System.out.println(turn(0)); } catch (Lost e) { System.out.println(e.getMessage()); }
        String s = null;
        try { System.out.println(s.length()); } catch (RuntimeException e) { System.out.println("null"); }
    }
}
