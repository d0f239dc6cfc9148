// Generic classes with bridges, and inner and anonymous classes, whose outer object and captured locals
// are stored before the superclass's constructor is called.
interface Order<T> {
    boolean isBefore(T left, T right);
}

interface Walk<T> {
    boolean more();

    T next();
}

class Chain<T> {
    private class Link {
        final T item;
        Link next;

        Link(T item, Link next) {
            this.item = item;
            this.next = next;
            size++;
        }
    }

    private Link first;
    private int size;

    void add(T item) {
        first = new Link(item, first);
    }

    void insert(T item, Order<T> order) {
        Link before = null;
        Link after = first;
        while (after != null && order.isBefore(after.item, item)) {
            before = after;
            after = after.next;
        }
        Link made = new Link(item, after);
        if (before == null) {
            first = made;
        } else {
            before.next = made;
        }
    }

    Walk<T> walk() {
        return new Walk<T>() {
            private Link at = first;

            public boolean more() {
                return at != null;
            }

            public T next() {
                T item = at.item;
                at = at.next;
                return item;
            }
        };
    }

    int size() {
        return size;
    }
}

class Number implements Order<Number> {
    final int value;

    private Number(int value) {
        this.value = value;
    }

    static class Maker {
        Number made(int value) {
            return new Number(value);
        }
    }

    public boolean isBefore(Number left, Number right) {
        return left.value < right.value;
    }
}

class Lists {
    static Walk<Number> counted(final int from, final long to) {
        final Number.Maker maker = new Number.Maker();
        class Counting implements Walk<Number> {
            long at = from;

            public boolean more() {
                return at < to;
            }

            public Number next() {
                return maker.made((int) at++);
            }
        }
        return new Counting();
    }

    public static void main(String[] words) {
        Chain<Number> chain = new Chain<Number>();
        Number.Maker maker = new Number.Maker();
        Order<Number> order = maker.made(0);
        int[] values = {5, 1, 4, 1, 3};
        for (int value : values) {
            chain.insert(maker.made(value), order);
        }
        Walk<Number> counted = counted(7, 9L);
        while (counted.more()) {
            chain.add(counted.next());
        }
        for (Walk<Number> walk = chain.walk(); walk.more();) {
            System.out.println(walk.next().value);
        }
        System.out.println(chain.size());
        Chain<String> texts = new Chain<String>();
        texts.add("first");
        texts.add(null);
        Walk<String> walk = texts.walk();
        String text = walk.next();
        System.out.println(text);
        System.out.println(walk.next().length());
    }
}
