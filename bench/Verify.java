// Has HotSpot define and link the programs that a file names, a line each, with its class files as
// `NAME=FILE` words. For each it prints a line: `accepted`, or the error, the first line of its message,
// and where and why, as far as that says so. No class is initialized.
import java.io.IOException;
import java.nio.file.Files;
import java.nio.file.Paths;
import java.util.LinkedHashMap;
import java.util.Map;

class Verify extends ClassLoader {
    private final Map<String, String> files = new LinkedHashMap<>();

    // Besides its own classes each program finds only those of the boot loader.
    Verify(String line) {
        super(null);
        for (String word : line.split(" ")) {
            int equals = word.indexOf('=');
            files.put(word.substring(0, equals), word.substring(equals + 1));
        }
    }

    @Override
    protected Class<?> findClass(String name) throws ClassNotFoundException {
        String file = files.get(name);
        if (file == null) {
            throw new ClassNotFoundException(name);
        }
        try {
            byte[] bytes = Files.readAllBytes(Paths.get(file));
            return defineClass(name, bytes, 0, bytes.length);
        } catch (IOException e) {
            throw new IllegalStateException(e);
        }
    }

    private String outcome() throws ClassNotFoundException {
        try {
            for (String name : files.keySet()) {
                // It links the class before it looks for its constructors, and initializes nothing.
                loadClass(name).getDeclaredConstructors();
            }
            return "accepted";
        } catch (LinkageError e) {
            return e.getClass().getName() + "\t" + said(String.valueOf(e.getMessage()).split("\n"));
        }
    }

    private static String said(String[] message) {
        String said = message[0];
        for (int i = 1; i + 1 < message.length; i++) {
            String head = message[i].trim();
            if (head.equals("Location:") || head.equals("Reason:")) {
                said += "\t" + message[i + 1].trim();
            }
        }
        return said;
    }

    public static void main(String[] words) throws Exception {
        for (String line : Files.readAllLines(Paths.get(words[0]))) {
            System.out.println(new Verify(line).outcome());
        }
    }
}
