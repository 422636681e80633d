class Numbers {
    public static void main(String[] args) {
        int i = 2147483647;
        i += 1;
        System.out.println(i);
        long l = -1L >>> 60;
        System.out.println(l * -9223372036854775807L);
        System.out.println((char) (i ^ 'a' ^ i));
        System.out.println((short) 70000 + (byte) -129);
        System.out.println(7 % -3 + (-7) / 2);
        System.out.println(l > 14 ? i >> 31 : i >>> 31);
    }
}
