class Owners {
    synchronized static int held(Object o) {
        try { o.notify(); return 1; } catch (IllegalMonitorStateException e) { return 2; }
    }
    public static void main(String[] args) throws InterruptedException {
        Object o = new Object();
        System.out.println(held(o));
        synchronized (o) { System.out.println(held(o)); }
        Thread t = new Thread();
        t.run();
        System.out.println(Thread.currentThread() == t);
        t.join();
        System.out.println("joined");
    }
}
