// An interface's field comes before a superclass's, and a nearer class before one further up.
interface Limits {
    int OWN = Main.next();
    int limit = Main.next();
}

interface Titled {
    String name();
}

interface Named extends Titled {
}

class Base {
    static int limit = Main.next();
    static int depth = Main.next();
    int state = Main.next();

    static int total() {
        return 1;
    }

    int size() {
        return 2;
    }

    int width() {
        return 4;
    }
}

class Middle extends Base implements Limits {
    static int depth = Main.next();
    int state = Main.next();

    static int total() {
        return 5;
    }

    int size() {
        return 6;
    }
}
