class Hands extends Thread {
    static final Object lock = new Object();
    static int state;
    public void run() {
        synchronized (lock) { System.out.println(state); state = 2; lock.notify(); }
    }
    public static void main(String[] args) throws InterruptedException {
        Hands h = new Hands();
        synchronized (lock) {
            h.start();
            state = 1;
            while (state != 2) lock.wait();
            System.out.println(state);
        }
        h.join();
        System.out.println("joined");
    }
}
