class Stores {
    public static void main(String[] args) {
        Object[] a = new String[2];
        a[0] = "kept";
        try { a[1] = args; } catch (ArrayStoreException e) { System.out.println(a[1] == null); }
        System.out.println((String) a[0]);
        System.out.println(a instanceof String[]);
        try { int[] n = new int[-1]; } catch (NegativeArraySizeException e) { System.out.println("negative"); }
        Object o = args;
        System.out.println(o instanceof Object[]);
    }
}
