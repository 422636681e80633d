class Meets extends Thread {
    public synchronized void run() { notify(); }
    synchronized void meet() throws InterruptedException { start(); wait(); }
    public static void main(String[] args) throws InterruptedException {
        new Meets().meet();
    }
}
