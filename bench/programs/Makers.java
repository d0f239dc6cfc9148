// Constructors: chains of them, arguments that branch, `new` in arguments and in loops, and fields that
// are stored before and after the superclass's constructor is called.
class Point {
    static final long FAR = 1L << 40;
    static final String ORIGIN = "origin";
    final int x;
    final long y;
    Point next;

    Point() {
        this(0, 0, null);
    }

    Point(int x, long y, Point next) {
        this.x = x;
        this.y = y > FAR ? FAR : y;
        this.next = next;
    }

    Point(int[] both) {
        this(both.length > 0 ? both[0] : -1, both.length > 1 ? both[1] : -1L, null);
    }
}

class Labelled extends Point {
    String name = ORIGIN;
    int z;

    Labelled(boolean far, int z) {
        super(far ? 7 : z * z, far ? FAR + 1 : z, far && z > 0 ? new Point() : null);
        while (z > 10) {
            z -= 10;
        }
        if (z < 0) {
            return;
        }
        this.z = z;
    }

    Labelled(String name) {
        this(name == null || name.length() > 4, name != null ? name.length() : 0);
        try {
            this.name = name.concat("!");
        } catch (NullPointerException e) {
            this.name = e.getMessage();
        } finally {
            z++;
        }
    }
}

class Makers {
    private final int number;

    Makers(int number) {
        this.number = number;
    }

    class Part extends Point {
        Part(int by) {
            super(number * by, number, next(by));
        }
    }

    static Point next(int count) {
        Point first = null;
        do {
            first = new Point(count, count--, first == null ? new Point() : first);
        } while (count > 0);
        return first;
    }

    static Point[] row(int count) {
        Point[] row = new Point[count];
        for (int i = 0; i < row.length; i++) {
            row[i] = i % 3 == 0 ? new Point(new int[] {i, i + 1})
                : new Point(i, new Labelled(i > 4, i).y, i > 2 ? row[i - 1] : new Point());
        }
        return row;
    }

    Point part(int by) {
        return new Part(by);
    }

    public static void main(String[] words) {
        for (Point point : row(8)) {
            long length = 0;
            for (Point at = point; at != null; at = at.next) {
                length += at.x + at.y;
            }
            System.out.println(length);
        }
        System.out.println(new Labelled("five5").name);
        System.out.println(new Labelled((String) null).z);
        System.out.println(new Makers(6).part(7).next.x);
    }
}
