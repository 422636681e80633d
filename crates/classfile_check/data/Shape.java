interface Named {
    String name();
}

abstract class Shape implements Named, Comparable<Shape> {
    static final int SIDES = 4;
    static final long AREA = 1099511627776L;
    static final String KIND = "shape";
    static final short LEAST = -7;
    protected int width;
    private final int[][] grid = new int[3][3];
    private String[] labels;

    Shape(int width) {
        this.width = width;
        this.labels = (String[]) new String[2].clone();
    }

    public abstract int area(int scale);

    public String name() {
        return KIND;
    }

    public int compareTo(Shape other) {
        if (width < other.width) {
            return -1;
        }
        return width > other.width ? 1 : 0;
    }

    synchronized long total(long from) {
        long sum = from;
        try {
            for (int[] row : grid) {
                for (int cell : row) {
                    sum += cell * AREA;
                }
            }
        } catch (RuntimeException e) {
            sum = -1;
        }
        switch ((int) sum) {
            case 1:
                return 10;
            case 2:
                return 20;
            case 900:
                return labels.length;
            default:
                return sum;
        }
    }
}
