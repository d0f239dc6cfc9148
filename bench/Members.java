import java.io.IOException;
import java.lang.invoke.MethodHandle;
import java.lang.invoke.MethodHandles;
import java.lang.invoke.MethodType;
import java.lang.reflect.Constructor;
import java.lang.reflect.Field;
import java.lang.reflect.Member;
import java.lang.reflect.Method;
import java.lang.reflect.Modifier;
import java.nio.file.Files;
import java.nio.file.Path;
import java.util.ArrayList;
import java.util.HashMap;
import java.util.LinkedHashSet;
import java.util.List;
import java.util.Map;
import java.util.Set;
import java.util.regex.Matcher;
import java.util.regex.Pattern;

/**
 * Compares the classes in which members were found with those that the order of look-up says, and
 * that the JVM itself finds: Members NAME JAVAP FOUND
 *
 * <p>JAVAP is what {@code javap -v} prints of all classes of a world, and FOUND has a line for each
 * member reference in their constant pools: a class, an index, and the class that declares what the
 * reference names. The world's classes are on the class path.
 */
class Members {
    private static final Pattern THIS = Pattern.compile("  this_class: #\\d+ +// \"?([^\"]+)\"?");
    private static final Pattern REFERENCE = Pattern.compile(
        " +#(\\d+) = (Fieldref|Methodref|InterfaceMethodref) +#\\d+[.:]#\\d+ +// (.+)");
    private static final Pattern NAMED = Pattern.compile("\"?([^\".]+)\"?\\.\"?([^\":]+)\"?:(.+)");

    /** A member reference, by names. */
    private record Reference(String kind, String owner, String name, String descriptor) {
        boolean isField() {
            return kind.equals("Fieldref");
        }
    }

    /** The references of all classes, each by its class and its index. */
    private static Map<String, Reference> references(Path javap) throws IOException {
        Map<String, Reference> all = new HashMap<>();
        String current = "";
        for (String line : Files.readAllLines(javap)) {
            Matcher type = THIS.matcher(line);
            if (type.matches()) {
                current = type.group(1);
            }
            Matcher entry = REFERENCE.matcher(line);
            if (entry.matches()) {
                Matcher named = NAMED.matcher(entry.group(3));
                if (!named.matches()) {
                    throw new IOException(line);
                }
                all.put(current + " " + entry.group(1),
                    new Reference(entry.group(2), named.group(1), named.group(2), named.group(3)));
            }
        }
        return all;
    }

    private static Class<?> classOf(String name) throws ClassNotFoundException {
        return Class.forName(name.replace('/', '.'), false, Members.class.getClassLoader());
    }

    private static String nameOf(Class<?> type) {
        return type.getName().replace('.', '/');
    }

    private static String descriptorOf(Member member) {
        if (member instanceof Field field) {
            return field.getType().descriptorString();
        }
        if (member instanceof Method method) {
            return MethodType.methodType(method.getReturnType(), method.getParameterTypes())
                .descriptorString();
        }
        Class<?>[] parameters = ((Constructor<?>) member).getParameterTypes();
        return MethodType.methodType(void.class, parameters).descriptorString();
    }

    private static Member[] declared(Class<?> type, Reference reference) {
        if (reference.isField()) {
            return type.getDeclaredFields();
        }
        boolean isConstructor = reference.name().equals("<init>");
        return isConstructor ? type.getDeclaredConstructors() : type.getDeclaredMethods();
    }

    /** The member that a class itself declares, or null. */
    private static Member own(Class<?> type, Reference reference) {
        boolean isConstructor = reference.name().equals("<init>");
        for (Member member : declared(type, reference)) {
            boolean isNamed = isConstructor || member.getName().equals(reference.name());
            if (isNamed && descriptorOf(member).equals(reference.descriptor())) {
                return member;
            }
        }
        return null;
    }

    /** JVMS 5.4.3.2: the class, then its interfaces in order, then its superclass. */
    private static Class<?> field(Class<?> type, Reference reference) {
        if (own(type, reference) != null) {
            return type;
        }
        for (Class<?> above : type.getInterfaces()) {
            Class<?> found = field(above, reference);
            if (found != null) {
                return found;
            }
        }
        return type.getSuperclass() == null ? null : field(type.getSuperclass(), reference);
    }

    private static void addInterfaces(Class<?> type, Set<Class<?>> all) {
        for (Class<?> above : type.getInterfaces()) {
            if (all.add(above)) {
                addInterfaces(above, all);
            }
        }
        if (type.getSuperclass() != null) {
            addInterfaces(type.getSuperclass(), all);
        }
    }

    /** Whether a method of an interface is found below it. */
    private static boolean isInherited(Member member) {
        return !Modifier.isPrivate(member.getModifiers())
            && !Modifier.isStatic(member.getModifiers());
    }

    /**
     * JVMS 5.4.3.3 and 5.4.3.4, from the interfaces on: the one most specific method with a body,
     * and else any of them.
     */
    private static Set<Class<?>> inInterfaces(Class<?> type, Reference reference) {
        Set<Class<?>> above = new LinkedHashSet<>();
        addInterfaces(type, above);
        above.removeIf(each -> own(each, reference) == null || !isInherited(own(each, reference)));
        List<Class<?>> withBody = new ArrayList<>();
        for (Class<?> each : above) {
            boolean isMostSpecific = above.stream()
                .noneMatch(other -> other != each && each.isAssignableFrom(other));
            if (isMostSpecific && !Modifier.isAbstract(own(each, reference).getModifiers())) {
                withBody.add(each);
            }
        }
        return withBody.size() == 1 ? Set.of(withBody.get(0)) : above;
    }

    /** The classes of which one declares what a reference names. */
    private static Set<Class<?>> byOrder(Class<?> type, Reference reference) {
        if (reference.isField()) {
            Class<?> found = field(type, reference);
            return found == null ? Set.of() : Set.of(found);
        }
        for (Class<?> each = type; each != null; each = each.getSuperclass()) {
            if (own(each, reference) != null) {
                return Set.of(each);
            }
        }
        Member ofObject = type.isInterface() ? own(Object.class, reference) : null;
        if (ofObject != null && isInherited(ofObject)
                && Modifier.isPublic(ofObject.getModifiers())) {
            return Set.of(Object.class);
        }
        return inInterfaces(type, reference);
    }

    /** What the JVM finds when a method handle of the member is made. */
    private static MethodHandle handle(
            MethodHandles.Lookup lookup, Class<?> type, Reference reference, boolean isStatic)
            throws ReflectiveOperationException {
        if (reference.isField()) {
            Class<?> field = MethodType.fromMethodDescriptorString(
                "()" + reference.descriptor(), Members.class.getClassLoader()).returnType();
            return isStatic
                ? lookup.findStaticGetter(type, reference.name(), field)
                : lookup.findGetter(type, reference.name(), field);
        }
        MethodType method = MethodType.fromMethodDescriptorString(
            reference.descriptor(), Members.class.getClassLoader());
        if (reference.name().equals("<init>")) {
            return lookup.findConstructor(type, method);
        }
        return isStatic
            ? lookup.findStatic(type, reference.name(), method)
            : lookup.findVirtual(type, reference.name(), method);
    }

    /**
     * The class that the JVM tells, or null. Of a method that a class has from an interface alone
     * it tells the class itself, which doesn't declare it.
     */
    private static Class<?> byMachine(Class<?> type, Reference reference, boolean isStatic)
            throws ReflectiveOperationException {
        MethodHandles.Lookup lookup = MethodHandles.lookup();
        if (type.getModule() == Members.class.getModule()) {
            lookup = MethodHandles.privateLookupIn(type, lookup);
        }
        MethodHandle handle = handle(lookup, type, reference, isStatic);
        Class<?> told = lookup.revealDirect(handle).getDeclaringClass();
        return own(told, reference) == null ? null : told;
    }

    public static void main(String[] arguments) throws Exception {
        Map<String, Reference> references = references(Path.of(arguments[1]));
        int count = references.size();
        int inherited = 0;
        int open = 0;
        int same = 0;
        int other = 0;
        int untold = 0;
        List<String> wrong = new ArrayList<>();
        for (String line : Files.readAllLines(Path.of(arguments[2]))) {
            int end = line.lastIndexOf(' ');
            Reference reference = references.remove(line.substring(0, end));
            if (reference == null) {
                wrong.add(line + ": javap shows no such reference");
                continue;
            }
            Class<?> type = classOf(reference.owner());
            Set<Class<?>> all = byOrder(type, reference);
            String found = line.substring(end + 1);
            if (all.stream().noneMatch(each -> nameOf(each).equals(found))) {
                wrong.add(line + ": the order of look-up finds " + reference + " in " + all);
                continue;
            }
            inherited += found.equals(reference.owner()) ? 0 : 1;
            open += all.size() > 1 ? 1 : 0;
            Member member = own(classOf(found), reference);
            Class<?> told = byMachine(type, reference, Modifier.isStatic(member.getModifiers()));
            if (told == null) {
                untold += 1;
            } else if (nameOf(told).equals(found)) {
                same += 1;
            } else if (all.contains(told)) {
                other += 1;
            } else {
                wrong.add(line + ": the JVM finds " + reference + " in " + told);
            }
        }
        references.forEach(
            (place, reference) -> wrong.add(place + ": " + reference + " is missing"));
        wrong.forEach(System.err::println);
        System.out.println(arguments[0] + ": " + count + " references, " + inherited
            + " to inherited members, " + open + " to one of several; " + wrong.size()
            + " differ; the JVM finds the same class for " + same + ", another of several for "
            + other + ", and tells none for " + untold);
        System.exit(wrong.isEmpty() ? 0 : 1);
    }
}
