// Methods of superclasses and of interfaces without bodies (JLS 8.4.8, JVMS 5.4.3.3, 5.4.3.4).
interface Source {
    int next();

    boolean isEmpty();
}

interface NamedSource extends Source {
    String name();

    boolean isEmpty();
}

interface Sink {
    void put(int value);
}

interface Pipe extends NamedSource, Sink {
}

abstract class Stage implements Pipe {
    protected int value;

    public void put(int value) {
        this.value = value;
    }

    int twice() {
        return next() + next();
    }

    static int stages() {
        return 3;
    }
}

class Counter extends Stage {
    public int next() {
        return ++value;
    }

    public boolean isEmpty() {
        return false;
    }

    public String name() {
        return "counter";
    }

    public boolean equals(Object other) {
        return other == this;
    }
}

class Loud extends Counter {
    public int next() {
        return super.next() + 10;
    }

    int twice() {
        return super.twice() - 1;
    }

    private int hidden() {
        return 4;
    }

    int shown() {
        return hidden() + stages();
    }
}

class Main {
    static int drain(Source source) {
        return source.isEmpty() ? 0 : source.next();
    }

    static String show(Pipe pipe) {
        pipe.put(pipe.next());
        return pipe.isEmpty() ? "empty" : pipe.name();
    }

    static int stage(Stage stage) {
        stage.put(5);
        return stage.isEmpty() ? 0 : stage.next() + stage.twice();
    }

    public static void main(String[] arguments) {
        Loud loud = new Loud();
        Counter counter = loud;
        Object object = loud;
        loud.put(1);
        System.out.println(drain(loud) + drain(counter) + stage(loud) + stage(new Counter()));
        System.out.println(show(loud));
        System.out.println(loud.shown() + Loud.stages() + Counter.stages() + Stage.stages());
        System.out.println(loud.equals(counter));
        System.out.println(object.equals(counter));
        Source source = counter;
        System.out.println(source.equals(counter));
    }
}
