class Arrays {
    public static void main(String[] args) {
        int[] x = {3, 1};
        System.out.println(x[0] * 10L + x.length);
        byte[] b = new byte[1];
        b[0] = (byte) 200;
        System.out.println(b[0]);
        int[][] m = new int[2][3];
        m[1][2] = 7;
        System.out.println(m[1][2] + m[0][2]);
        try {
            x[2] = 1;
        } catch (ArrayIndexOutOfBoundsException e) {
            System.out.println("past the end");
        }
    }
}
