class Shared implements Runnable {
    int n;
    synchronized void add() { n += 5; }
    public void run() { add(); }
    public static void main(String[] args) throws InterruptedException {
        Shared s = new Shared();
        Thread t = new Thread(s);
        synchronized (s) { t.start(); s.add(); }
        t.join();
        System.out.println(s.n);
        try { t.start(); } catch (IllegalThreadStateException e) { System.out.println("once"); }
    }
}
