interface Left { default String side() { return "left"; } }
interface Right { default String side() { return "right"; } }
class Both implements Left, Right {
    private String own() { return "own "; }
    public String side() { return own() + Left.super.side() + Right.super.side(); }
}
class More extends Both { public String side() { return super.side() + "!"; } }
class Supers {
    public static void main(String[] args) {
        Right r = new More();
        System.out.println(r.side());
    }
}
