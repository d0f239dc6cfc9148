// Both kinds of switch, texts by their chars, recursion, and exceptions that cross frames.
class Calculator {
    static class Wrong extends RuntimeException {
        final int place;

        Wrong(String message, int place) {
            super(message.concat(" at ").concat(String.valueOf(place)));
            this.place = place;
        }
    }

    private final String text;
    private int place;

    Calculator(String text) {
        this.text = text;
    }

    private char peek() {
        return place < text.length() ? text.charAt(place) : '\0';
    }

    private static int applied(char sign, int left, int right) {
        switch (sign) {
            case '*':
                return left * right;
            case '+':
                return left + right;
            case '-':
                return left - right;
            case '/':
                return left / right;
            case '%':
                return left % right;
            default:
                throw new IllegalArgumentException();
        }
    }

    private static int rank(char sign) {
        int rank = 0;
        switch (sign) {
            case '^':
                rank++;
            case '*':
            case '/':
            case '%':
                rank++;
            case '+':
            case '-':
                rank++;
                break;
            case 1000:
                rank = -1;
        }
        return rank;
    }

    private int atom() {
        char first = peek();
        place++;
        if (first == '-') {
            return -atom();
        }
        if (first == '(') {
            int value = sum(1);
            if (peek() != ')') {
                throw new Wrong("no bracket", place);
            }
            place++;
            return value;
        }
        if (first < '0' || first > '9') {
            throw new Wrong("no number", place - 1);
        }
        int value = first - '0';
        for (; peek() >= '0' && peek() <= '9'; place++) {
            value = value * 10 + (peek() - '0');
        }
        return value;
    }

    private int sum(int least) {
        int value = atom();
        for (char sign = peek(); rank(sign) >= least; sign = peek()) {
            place++;
            value = applied(sign, value, sum(rank(sign) + 1));
        }
        return value;
    }

    static int value(String text) {
        Calculator calculator = new Calculator(text);
        int value = calculator.sum(1);
        if (calculator.place < text.length()) {
            throw new Wrong("more text", calculator.place);
        }
        return value;
    }

    static String day(int number) {
        switch (number % 7) {
            case 0:
                return "Sunday";
            case 1: case 2: case 3: case 4: case 5:
                return "weekday";
            case 6:
                return "Saturday";
            default:
                return null;
        }
    }

    public static void main(String[] words) {
        String[] texts = {"1+2*3", "(1+2)*3-4%3", "-(7-9)*12345", "2/(1-1)", "4+", "5)", "2^3"};
        for (String text : texts) {
            try {
                System.out.println(value(text));
            } catch (ArithmeticException e) {
                System.out.println("division");
            } catch (Wrong e) {
                System.out.println(e.getMessage());
            } catch (IllegalArgumentException e) {
                System.out.println(text);
            }
        }
        System.out.println(day(13));
        System.out.println(day(-3));
    }
}
