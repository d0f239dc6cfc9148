/** Instructions of most families: `javac --release 8 -g:none Sample.java`. */
abstract class Sample implements Runnable {
    static long total = 1L;
    private int[] row = {-1, 5, 100, 1000};

    abstract int next(Object other);

    int sum(int count, long factor, Sample other) {
        int sum = 0;
        for (int i = 0; i < count; i++) {
            sum += row[i % 4] << 2 >>> 1 ^ ~i;
        }
        total = factor * sum - -factor >> 3;
        return (short) (total > 0L ? sum : next(other));
    }

    synchronized Object choice(int key, Object given) {
        switch (key) {
            case 1: case 2: return "one";
            case 3: return this;
            default: break;
        }
        switch (key) {
            case -1000: return new byte[key];
            case 70000: return new Object[] {given};
            default: break;
        }
        synchronized (this) {
            if (given != null && given == this || given instanceof String) {
                key += 1000;
            }
        }
        throw (RuntimeException) given;
    }

    public void run() {
        for (Runnable inner = this; inner != null; inner = null) {
            inner.run();
        }
    }
}
