// Arrays of every kind of whole number, loops in loops, recursion.
class Sorts {
    static int seed = 42;

    static int next(int below) {
        seed = seed * 1103515245 + 12345;
        return (seed >>> 16) % below;
    }

    static void quick(int[] items, int from, int to) {
        while (to - from > 1) {
            int pivot = items[from + (to - from) / 2], low = from, high = to - 1;
            while (low <= high) {
                while (items[low] < pivot) {
                    low++;
                }
                while (items[high] > pivot) {
                    high--;
                }
                if (low <= high) {
                    int kept = items[low];
                    items[low++] = items[high];
                    items[high--] = kept;
                }
            }
            quick(items, from, high + 1);
            from = low;
        }
    }

    static int find(int[] items, int wanted) {
        int from = 0, to = items.length;
        while (from < to) {
            int middle = (from + to) >>> 1;
            if (items[middle] == wanted) {
                return middle;
            }
            if (items[middle] < wanted) {
                from = middle + 1;
            } else {
                to = middle;
            }
        }
        return -from - 1;
    }

    static long sieve(int count) {
        boolean[] struck = new boolean[count];
        long sum = 0;
        for (int i = 2; i < count; i++) {
            if (!struck[i]) {
                sum += i;
                for (int j = 2 * i; j < count; j += i) {
                    struck[j] = true;
                }
            }
        }
        return sum;
    }

    static char[] letters(String text) {
        char[] letters = new char[text.length()];
        for (int i = 0; i < letters.length; i++) {
            letters[i] = text.charAt(letters.length - 1 - i);
        }
        return letters;
    }

    static int[][] triangle(int rows) {
        int[][] triangle = new int[rows][];
        for (int row = 0; row < rows; row++) {
            triangle[row] = new int[row + 1];
            triangle[row][0] = triangle[row][row] = 1;
            for (int i = 1; i < row; i++) {
                triangle[row][i] = triangle[row - 1][i - 1] + triangle[row - 1][i];
            }
        }
        return triangle;
    }

    static int checked(byte[] bytes, short[] shorts) {
        int sum = 0;
        for (int i = 0; i < bytes.length && i < shorts.length; i++) {
            bytes[i] += i * 100;
            shorts[i] = (short) (bytes[i] ^ sum << 3);
            sum = sum * 31 + (bytes[i] & 255) + shorts[i];
        }
        return sum;
    }

    static int counted(Object[] rows, int[] widths) {
        Object last = null;
        int sum = 0;
        for (int i = 0; i < rows.length; i++) {
            sum += rows[i] == last ? 1 : widths[i % widths.length];
            last = rows[i];
            rows[i] = null;
        }
        return sum;
    }

    public static void main(String[] words) {
        int[] items = new int[50];
        for (int i = 0; i < items.length; i++) {
            items[i] = next(1000);
        }
        quick(items, 0, items.length);
        boolean sorted = true;
        for (int i = 1; i < items.length; i++) {
            sorted &= items[i - 1] <= items[i];
        }
        System.out.println(sorted);
        System.out.println(find(items, items[20]) >= 0 || find(items, -1) == -1);
        System.out.println(sieve(200));
        for (char letter : letters("backwards")) {
            System.out.print(letter);
        }
        System.out.println();
        System.out.println(triangle(10)[9][4]);
        System.out.println(counted(triangle(5), triangle(4)[3]));
        System.out.println(checked(new byte[9], new short[7]));
    }
}
