// Fields by the classes and interfaces that hide them (JLS 8.3, JVMS 5.4.3.2).
interface Sizes {
    int SMALL = Main.next();
    int LARGE = Main.next();
}

interface MoreSizes extends Sizes {
    int LARGE = Main.next();
    int HUGE = Main.next();
}

class Shape {
    static int count = Main.next();
    int width = Main.next();
    long area = Main.next();
    protected int[] sides = {1, 2};
    String name = "shape";
}

class Box extends Shape {
    int width = Main.next();
    static int boxes = Main.next();
}

class Crate extends Box implements MoreSizes {
    long area = Main.next();

    int sum() {
        return width + super.width + ((Shape) this).width + SMALL + LARGE + HUGE + Sizes.LARGE;
    }

    long areas() {
        return area + super.area + ((Shape) this).area;
    }
}

class Pallet extends Crate {
    int count() {
        return count + boxes + sides.length + sides[0];
    }
}

class Main {
    private static int last;

    static int next() {
        return ++last;
    }

    public static void main(String[] arguments) {
        Pallet pallet = new Pallet();
        Crate crate = pallet;
        Box box = pallet;
        Shape shape = pallet;
        pallet.width = 7;
        box.sides = new int[] {3};
        Pallet.count += 2;
        Crate.boxes = Pallet.boxes + Box.boxes + Shape.count + Crate.count;
        System.out.println(pallet.width + crate.width + box.width + shape.width);
        System.out.println(pallet.area + crate.area + box.area + shape.area);
        System.out.println(pallet.sum() + crate.sum() + pallet.count());
        System.out.println(pallet.areas());
        System.out.println(Pallet.SMALL + Pallet.LARGE + Crate.HUGE + MoreSizes.SMALL);
        System.out.println(pallet.name);
    }
}
