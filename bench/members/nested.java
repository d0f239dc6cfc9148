// Classes inside others: fields for the outer object, methods that reach private members, and
// classes without a name.
class Outer {
    private int count;
    private static int total;

    class Inner {
        int count = 2;

        int both() {
            return count + Outer.this.count + total;
        }

        class Innermost extends Inner {
            int all() {
                return both() + count + super.count + Inner.this.count;
            }
        }

        Innermost innermost() {
            return new Innermost();
        }
    }

    static class Other extends Outer {
        int raise() {
            total += 1;
            return ((Outer) this).count;
        }

        private Other() {
        }
    }

    Inner inner() {
        return new Inner();
    }

    static Other other() {
        return new Other();
    }

    Runnable adder(final int amount) {
        return new Runnable() {
            public void run() {
                count += amount;
                total += amount;
            }
        };
    }

    int count() {
        return count;
    }
}

class Main {
    public static void main(String[] arguments) {
        Outer outer = new Outer();
        Outer.Inner inner = outer.inner();
        Outer.Inner.Innermost innermost = inner.innermost();
        Outer.Other other = Outer.other();
        outer.adder(3).run();
        System.out.println(inner.both() + innermost.all() + innermost.both() + innermost.count);
        System.out.println(other.raise() + other.count() + other.inner().both());
    }
}
