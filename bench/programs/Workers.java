// Threads by subclass and by target, synchronized methods and blocks, and exceptions that leave them.
class Workers {
    static final Object LOCK = new Object();
    static int failed;
    private static long total;

    static synchronized void add(long more) {
        total += more;
    }

    static synchronized long total() {
        return total;
    }

    static class Cell {
        private int value;
        private boolean full;

        synchronized boolean put(int value) {
            if (full) {
                return false;
            }
            this.value = value;
            full = true;
            return true;
        }

        int take(int without) {
            synchronized (this) {
                if (!full) {
                    return without;
                }
                full = false;
                return value;
            }
        }
    }

    static class Adding implements Runnable {
        private final Cell cell;
        private final int count;

        Adding(Cell cell, int count) {
            this.cell = cell;
            this.count = count;
        }

        public void run() {
            int i = 0;
            while (i < count) {
                if (cell.put(i)) {
                    i++;
                }
                add(cell.take(0));
            }
        }
    }

    static class Dividing extends Thread {
        private final int by;

        Dividing(int by) {
            this.by = by;
        }

        public void run() {
            synchronized (LOCK) {
                try {
                    add(divided(100));
                } catch (ArithmeticException e) {
                    synchronized (this) {
                        failed++;
                    }
                }
            }
        }

        synchronized int divided(int number) {
            return number / by;
        }
    }

    public static void main(String[] words) {
        Thread[] threads = new Thread[6];
        for (int i = 0; i < threads.length; i++) {
            if (i % 2 == 0) {
                threads[i] = new Thread(new Adding(new Cell(), 10 * i));
            } else {
                threads[i] = new Dividing(i - 3);
            }
            threads[i].start();
        }
        for (Thread thread : threads) {
            boolean joined = false;
            while (!joined) {
                try {
                    thread.join();
                    joined = true;
                } catch (InterruptedException e) {
                    continue;
                }
            }
        }
        synchronized (LOCK) {
            System.out.println(failed);
        }
        System.out.println(total() > 0);
    }
}
