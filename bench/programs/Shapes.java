// Interfaces, abstract classes, overriding, casts and tests of types, arrays of all of them.
interface Shape {
    int SCALE = 100;

    int area();

    Shape grown(int factor);
}

interface Named {
    String name();
}

abstract class Solid implements Shape, Named {
    protected final String name;
    static int made;

    Solid(String name) {
        this.name = name;
        made++;
    }

    public String name() {
        return name;
    }

    boolean isLarger(Shape other) {
        return area() > other.area();
    }
}

class Square extends Solid {
    final int side;

    Square(int side) {
        this("square", side);
    }

    Square(String name, int side) {
        super(name);
        this.side = side;
    }

    public int area() {
        return side * side;
    }

    public Square grown(int factor) {
        return new Square(side * factor);
    }
}

final class Cube extends Square {
    Cube(int side) {
        super("cube", side);
    }

    public int area() {
        return 6 * super.area();
    }

    public Square grown(int factor) {
        return factor < 0 ? null : new Cube(side * factor);
    }
}

class Circle extends Solid {
    private int radius;

    Circle(int radius) {
        super("circle");
        this.radius = radius;
    }

    public int area() {
        return radius * radius * 314 / SCALE;
    }

    public Shape grown(int factor) {
        Circle grown = new Circle(radius);
        grown.radius *= factor;
        return grown;
    }
}

class Shapes {
    static Shape largest(Shape[] shapes) {
        Shape largest = null;
        for (Shape shape : shapes) {
            if (largest == null || shape.area() > largest.area()) {
                largest = shape;
            }
        }
        return largest;
    }

    static String said(Object some) {
        if (some instanceof Square) {
            return ((Square) some).side > 3 ? "wide" : "narrow";
        } else if (some instanceof Named) {
            return ((Named) some).name();
        } else if (some instanceof Object[]) {
            Object[] rows = (Object[]) some;
            return rows.length == 0 ? "none" : said(rows[0]);
        }
        return some instanceof int[] ? "ints" : "else";
    }

    public static void main(String[] words) {
        Shape[] shapes = {new Square(3), new Circle(2), new Cube(2), new Square(4).grown(2)};
        System.out.println(largest(shapes).area());
        Object[] some = {
            shapes[0], shapes[1], shapes, new Solid[0], new int[2], "text", null, new Shape[][] {shapes},
        };
        for (Object each : some) {
            System.out.println(said(each));
        }
        Solid solid = (Solid) shapes[2];
        System.out.println(solid.isLarger(shapes[1].grown(3)));
        System.out.println(Solid.made);
    }
}
