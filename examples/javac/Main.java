/** Prints constants that the Java compiler computed. Its constructor is verified, and never runs. */
public class Main {
    static final int DAYS = 366;

    private int hours;

    Main(int days) {
        hours = days * 24;
    }

    public static void main(String[] arguments) {
        System.out.println(DAYS * 24);
        System.out.println(Integer.MAX_VALUE + 1);
    }
}
