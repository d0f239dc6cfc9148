// Handlers in handlers, `finally` in loops, breaks to labels, and branches that meet with unlike types.
class Flow {
    static class Left extends RuntimeException {
        Left(String message) {
            super(message);
        }
    }

    static class Right extends Left {
        Right() {
            super("right");
        }
    }

    static int log;

    static void note(int digit) {
        log = log * 10 + digit;
    }

    static Object thrown(int which, Object some) {
        switch (which) {
            case 0:
                throw new Left("left");
            case 1:
                throw new Right();
            case 2:
                return ((String) some).length() > 0 ? some : new int[0];
            case 3:
                return new int[-1];
            case 4:
                return ((Object[]) some)[which];
            case 5:
                throw null;
            default:
                return which > 7 ? some : which > 6 ? new Left[1] : "six";
        }
    }

    static int caught(int which, Object some) {
        int state = 1;
        try {
            state = 2;
            Object made = thrown(which, some);
            state = made instanceof String ? 3 : 4;
            try {
                return made == null ? state : state + 10;
            } finally {
                note(1);
            }
        } catch (Right e) {
            return -state;
        } catch (Left | ClassCastException e) {
            RuntimeException kept = e;
            state += kept.getMessage() == "left" ? 100 : 200;
        } catch (RuntimeException e) {
            try {
                note(2);
                throw e;
            } catch (NullPointerException inner) {
                note(3);
            } catch (NegativeArraySizeException inner) {
                note(4);
            }
        } finally {
            note(state % 10);
        }
        return state;
    }

    static int searched(int[][] rows, int wanted) {
        int steps = 0;
        rows:
        for (int[] row : rows) {
            for (int item : row) {
                steps++;
                if (item > wanted) {
                    continue rows;
                }
                if (item == wanted) {
                    break rows;
                }
            }
            int rest = row.length;
            do {
                if (rest == 2) {
                    break;
                }
                long wide = rest;
                steps += wide > 2 ? 2 : 1;
            } while (--rest > 0);
        }
        return steps;
    }

    static String last(String[] texts) {
        String last = null;
        for (int i = texts.length; last == null; ) {
            try {
                last = texts[--i];
                if (last.length() == 0) {
                    last = null;
                }
            } catch (ArrayIndexOutOfBoundsException e) {
                break;
            } catch (NullPointerException e) {
                continue;
            } finally {
                log++;
            }
        }
        return last;
    }

    public static void main(String[] words) {
        Object[] some = {"", "text", new int[1], null, new Object()};
        for (int which = 0; which < 9; which++) {
            System.out.println(caught(which, some[which % some.length]));
        }
        System.out.println(log);
        System.out.println(searched(new int[][] {{1, 9}, {2, 3, 4}, {}, {5}}, 5));
        System.out.println(last(new String[] {"", "a", "", null}));
        System.out.println(last(new String[] {null}));
    }
}
