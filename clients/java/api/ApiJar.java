import static java.util.Map.entry;

import java.io.IOException;
import java.io.OutputStream;
import java.nio.file.Files;
import java.nio.file.Path;
import java.util.Collections;
import java.util.List;
import java.util.Map;
import java.util.TreeMap;
import java.util.jar.Attributes;
import java.util.jar.JarEntry;
import java.util.jar.JarOutputStream;
import java.util.jar.Manifest;
import java.util.zip.ZipEntry;
import java.util.zip.ZipFile;
import net.bytebuddy.jar.asm.AnnotationVisitor;
import net.bytebuddy.jar.asm.ClassReader;
import net.bytebuddy.jar.asm.ClassVisitor;
import net.bytebuddy.jar.asm.ClassWriter;
import net.bytebuddy.jar.asm.MethodVisitor;
import net.bytebuddy.jar.asm.Opcodes;
import net.bytebuddy.jar.asm.Type;

/**
 * Makes the API of version 3.1 for tests, where only the one of 2.1 is at hand, already moved to {@code jakarta}.
 *
 * <p>{@code ApiJar OLD.jar FOLDER NEW.jar}: classes in FOLDER replace those of OLD. An application brings the
 * standard's own jar; none of this goes into the product.
 */
public final class ApiJar {
    private static final String PACKAGE = "jakarta/persistence/";
    private static final String BUILDER = PACKAGE + "criteria/CriteriaBuilder";

    /** Annotations that may stand several times since 2.2, and those that hold them. */
    private static final Map<String, String> REPEATABLE = Map.ofEntries(
            held("AssociationOverride", "AssociationOverrides"),
            held("AttributeOverride", "AttributeOverrides"),
            held("JoinColumn", "JoinColumns"),
            held("MapKeyJoinColumn", "MapKeyJoinColumns"),
            held("NamedEntityGraph", "NamedEntityGraphs"),
            held("NamedNativeQuery", "NamedNativeQueries"),
            held("NamedQuery", "NamedQueries"),
            held("NamedStoredProcedureQuery", "NamedStoredProcedureQueries"),
            held("PersistenceContext", "PersistenceContexts"),
            held("PersistenceUnit", "PersistenceUnits"),
            held("PrimaryKeyJoinColumn", "PrimaryKeyJoinColumns"),
            held("SecondaryTable", "SecondaryTables"),
            held("SequenceGenerator", "SequenceGenerators"),
            held("SqlResultSetMapping", "SqlResultSetMappings"),
            held("TableGenerator", "TableGenerators"));

    /** A method that 3.1 adds to the criteria builder. */
    private record Added(String name, String descriptor, String signature) {}

    private static final String EXPRESSION = "Ljakarta/persistence/criteria/Expression;";
    private static final String NUMBERS = "Ljakarta/persistence/criteria/Expression<+Ljava/lang/Number;>;";

    private static final List<Added> BUILDER_METHODS = List.of(
            new Added("sign", one(EXPRESSION), "(" + NUMBERS + ")" + of("java/lang/Integer")),
            same("ceiling"),
            same("floor"),
            new Added("exp", one(EXPRESSION), "(" + NUMBERS + ")" + of("java/lang/Double")),
            new Added("ln", one(EXPRESSION), "(" + NUMBERS + ")" + of("java/lang/Double")),
            new Added("power", one(EXPRESSION + EXPRESSION), "(" + NUMBERS + NUMBERS + ")" + of("java/lang/Double")),
            new Added("power", one(EXPRESSION + "Ljava/lang/Number;"),
                    "(" + NUMBERS + "Ljava/lang/Number;)" + of("java/lang/Double")),
            new Added("round", one(EXPRESSION + "Ljava/lang/Integer;"),
                    "<N:Ljava/lang/Number;>(Ljakarta/persistence/criteria/Expression<TN;>;Ljava/lang/Integer;)"
                            + "Ljakarta/persistence/criteria/Expression<TN;>;"),
            new Added("localDate", one(""), "()" + of("java/time/LocalDate")),
            new Added("localDateTime", one(""), "()" + of("java/time/LocalDateTime")),
            new Added("localTime", one(""), "()" + of("java/time/LocalTime")));

    private ApiJar() {}

    public static void main(String[] words) throws IOException {
        Map<String, byte[]> classes = new TreeMap<>();
        try (ZipFile old = new ZipFile(words[0])) {
            for (ZipEntry entry : Collections.list(old.entries())) {
                if (entry.getName().startsWith("jakarta/") && entry.getName().endsWith(".class")) {
                    classes.put(entry.getName(), raised(old.getInputStream(entry).readAllBytes()));
                }
            }
        }
        Path folder = Path.of(words[1]);
        try (var files = Files.walk(folder)) {
            for (Path file : (Iterable<Path>) files.filter(path -> path.toString().endsWith(".class"))::iterator) {
                classes.put(folder.relativize(file).toString(), Files.readAllBytes(file));
            }
        }
        write(classes, Path.of(words[2]));
    }

    private static void write(Map<String, byte[]> classes, Path to) throws IOException {
        Manifest manifest = new Manifest();
        manifest.getMainAttributes().put(Attributes.Name.MANIFEST_VERSION, "1.0");
        manifest.getMainAttributes().put(new Attributes.Name("Automatic-Module-Name"), "jakarta.persistence");
        try (OutputStream file = Files.newOutputStream(to); JarOutputStream jar = new JarOutputStream(file, manifest)) {
            for (var one : classes.entrySet()) {
                jar.putNextEntry(new JarEntry(one.getKey()));
                jar.write(one.getValue());
            }
        }
    }

    private static byte[] raised(byte[] old) {
        ClassWriter writer = new ClassWriter(0);
        new ClassReader(old).accept(new Raising(writer), 0);
        return writer.toByteArray();
    }

    /** Adds to a class of 2.1 what 3.1 has more. */
    private static final class Raising extends ClassVisitor {
        private String name;

        Raising(ClassVisitor next) {
            super(Opcodes.ASM9, next);
        }

        @Override
        public void visit(int version, int access, String name, String signature, String above, String[] interfaces) {
            this.name = name;
            boolean closes = name.equals(PACKAGE + "EntityManager") || name.equals(PACKAGE + "EntityManagerFactory");
            String[] now = closes ? new String[] {"java/lang/AutoCloseable"} : interfaces;
            super.visit(Opcodes.V1_8, access, name, signature, above, now);
        }

        @Override
        public void visitEnd() {
            String holder = REPEATABLE.get(name);
            if (holder != null) {
                AnnotationVisitor repeatable = cv.visitAnnotation("Ljava/lang/annotation/Repeatable;", true);
                repeatable.visit("value", Type.getObjectType(holder));
                repeatable.visitEnd();
            }
            if (name.equals(PACKAGE + "Query")) {
                stream(null);
            } else if (name.equals(PACKAGE + "TypedQuery")) {
                stream("()Ljava/util/stream/Stream<TX;>;");
            } else if (name.equals(BUILDER)) {
                int access = Opcodes.ACC_PUBLIC | Opcodes.ACC_ABSTRACT;
                BUILDER_METHODS.forEach(it -> cv.visitMethod(access, it.name, it.descriptor, it.signature, null).visitEnd());
            }
            super.visitEnd();
        }

        /** {@code default Stream getResultStream() { return getResultList().stream(); }} */
        private void stream(String signature) {
            String descriptor = "()Ljava/util/stream/Stream;";
            MethodVisitor method = cv.visitMethod(Opcodes.ACC_PUBLIC, "getResultStream", descriptor, signature, null);
            method.visitCode();
            method.visitVarInsn(Opcodes.ALOAD, 0);
            method.visitMethodInsn(Opcodes.INVOKEINTERFACE, name, "getResultList", "()Ljava/util/List;", true);
            method.visitMethodInsn(Opcodes.INVOKEINTERFACE, "java/util/List", "stream", descriptor, true);
            method.visitInsn(Opcodes.ARETURN);
            method.visitMaxs(1, 1);
            method.visitEnd();
        }
    }

    private static Map.Entry<String, String> held(String annotation, String holder) {
        return entry(PACKAGE + annotation, PACKAGE + holder);
    }

    private static String one(String parameters) {
        return "(" + parameters + ")" + EXPRESSION;
    }

    private static String of(String result) {
        return "Ljakarta/persistence/criteria/Expression<L" + result + ";>;";
    }

    private static Added same(String name) {
        String expression = "Ljakarta/persistence/criteria/Expression<TN;>;";
        return new Added(name, one(EXPRESSION), "<N:Ljava/lang/Number;>(" + expression + ")" + expression);
    }
}
