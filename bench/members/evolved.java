// Classes that are compiled against earlier forms of those above them, whose later ones are in
// `evolved.later.java`.
interface Limits {
    int OWN = Main.next();
}

interface Named {
    String name();
}

class Base {
    static int limit = Main.next();
    static int depth = Main.next();
    int state = Main.next();

    static int total() {
        return 1;
    }

    int size() {
        return 2;
    }
}

class Middle extends Base implements Limits {
    int width() {
        return 3;
    }
}

abstract class Bottom extends Middle implements Named {
}

class Last extends Bottom {
    public String name() {
        return "last";
    }

    int all() {
        return super.size() + super.width() + state + super.state;
    }
}

class Main {
    private static int last;

    static int next() {
        return ++last;
    }

    static String named(Named named) {
        return named.name();
    }

    public static void main(String[] arguments) {
        Last object = new Last();
        Bottom bottom = object;
        System.out.println(Middle.limit + Bottom.limit + Last.limit + Last.depth + Last.OWN);
        System.out.println(Middle.total() + Last.total());
        System.out.println(object.size() + bottom.size() + object.width() + object.state);
        System.out.println(object.all());
        System.out.println(named(object));
        System.out.println(bottom.name());
    }
}
