// Longs in locals, fields, arrays and arguments, and every way to double what lies on the stack.
class Longs {
    static long shared = Long.MAX_VALUE;
    long own = -5;
    int small = 3;
    long[] many = {1, 2, 3, 4};

    static long mixed(int a, long b, int c, long d) {
        long e = a * b + c / d - d % 3;
        e ^= b << c | d >> a & ~b >>> 2;
        return -e;
    }

    static int compared(long a, long b) {
        if (a == b) {
            return 0;
        }
        return a < b ? -1 : (int) (a - b >>> 60) + 1;
    }

    static long power(long base, int exponent) {
        long power = 1;
        for (; exponent > 0; exponent >>= 1, base *= base) {
            if ((exponent & 1) != 0) {
                power *= base;
            }
        }
        return power;
    }

    static long common(long a, long b) {
        while (b != 0) {
            long rest = a % b;
            a = b;
            b = rest;
        }
        return a < 0 ? -a : a;
    }

    long doubled(int at) {
        long kept = many[at] = own = shared++;
        kept += many[at]--;
        kept -= own++;
        int less = small = small + 1;
        kept += many[small - less] += small++;
        small += many.length;
        return kept + ++own;
    }

    static int ints(int[] items, byte[] bytes, char letter) {
        int last = items[1] = items[0]++;
        last += bytes[0] = bytes[1] = (byte) letter;
        letter += last;
        items[1] ^= ++letter;
        return last << (short) letter >> 1;
    }

    static long[] filled(int count, long first, long step) {
        long[] filled = new long[count];
        for (int i = 0; i < count; first += step) {
            filled[i++] = first;
        }
        return filled;
    }

    public static void main(String[] words) {
        System.out.println(mixed(3, 1L << 33, 7, -9));
        System.out.println(compared(shared, -1) + compared(2, 2) + compared(-3, 3));
        System.out.println(power(3, 39));
        System.out.println(common(1071L * 1000003, -462L * 1000003));
        System.out.println(new Longs().doubled(2));
        System.out.println(ints(new int[] {4, 5}, new byte[2], 'q'));
        long sum = 0;
        for (long each : filled(10, 1_000_000_000_000L, -3)) {
            sum += each;
        }
        System.out.println(sum);
        System.out.println((byte) sum + (short) sum + (char) sum);
    }
}
