// Members that classes have from those that every program finds there.
class Trouble extends Exception {
    final int code;

    Trouble(String message, int code) {
        super(message);
        this.code = code;
    }
}

class DeepTrouble extends Trouble {
    DeepTrouble() {
        super("deep", 2);
    }

    public String getMessage() {
        return super.getMessage().concat("er");
    }
}

class Worker extends Thread {
    static int done;
    private final int number;

    Worker(int number) {
        this.number = number;
    }

    public void run() {
        done += number;
    }
}

class Task implements Runnable {
    public void run() {
        Worker.done += 100;
    }
}

class Main {
    static int check(int code) throws Trouble {
        if (code > 1) {
            throw new DeepTrouble();
        }
        if (code > 0) {
            throw new Trouble("plain", code);
        }
        return code;
    }

    static String told(int code) {
        try {
            check(code);
            return "none";
        } catch (DeepTrouble trouble) {
            return trouble.getMessage();
        } catch (Trouble trouble) {
            System.out.println(trouble.code);
            return trouble.getMessage();
        }
    }

    public static void main(String[] arguments) throws InterruptedException {
        System.out.println(told(0));
        System.out.println(told(1));
        System.out.println(told(2));
        Worker worker = new Worker(5);
        worker.start();
        worker.join();
        Runnable task = new Task();
        Thread thread = new Thread(task);
        thread.start();
        thread.join();
        task.run();
        System.out.println(Worker.done);
        String text = "abc";
        System.out.println(text.concat(String.valueOf(text.length())).charAt(3));
        System.out.println(text.equals("abc"));
        try {
            System.out.println(1 / (Worker.done - Worker.done));
        } catch (RuntimeException exception) {
            System.out.println(exception.equals(task));
        }
    }
}
