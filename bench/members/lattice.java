// Interfaces above interfaces: what is declared again below, and what more than one way leads to.
interface Top {
    int FIRST = Main.next();

    int height();

    int width();
}

interface Left extends Top {
    int FIRST = Main.next();
    int SECOND = Main.next();

    int height();
}

interface Right extends Top {
    int THIRD = Main.next();

    int width();
}

interface Low extends Left, Right {
    int depth();
}

abstract class Upper implements Right {
    static int steps = Main.next();
}

abstract class Lower extends Upper implements Low {
    int sum() {
        return height() + width() + depth() + SECOND + THIRD;
    }
}

class Solid extends Lower {
    public int height() {
        return 1;
    }

    public int width() {
        return 2;
    }

    public int depth() {
        return 3;
    }
}

class Main {
    private static int last;

    static int next() {
        return ++last;
    }

    static int measure(Low low) {
        return low.height() + low.width() + low.depth();
    }

    static int left(Left left) {
        return left.height() + left.width();
    }

    static int right(Right right) {
        return right.height() + right.width();
    }

    static int upper(Upper upper) {
        return upper.height() + upper.width();
    }

    static int lower(Lower lower) {
        return lower.height() + lower.width() + lower.depth() + lower.sum();
    }

    public static void main(String[] arguments) {
        Solid solid = new Solid();
        System.out.println(measure(solid) + left(solid) + right(solid));
        System.out.println(upper(solid) + lower(solid));
        System.out.println(Low.SECOND + Low.THIRD + Left.FIRST + Top.FIRST);
        System.out.println(Solid.SECOND + Solid.THIRD + Lower.steps + Solid.steps);
    }
}
