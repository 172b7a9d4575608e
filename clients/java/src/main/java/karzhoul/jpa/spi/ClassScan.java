package karzhoul.jpa.spi;

import jakarta.persistence.PersistenceException;
import java.io.IOException;
import java.io.InputStream;
import java.net.URI;
import java.nio.file.FileSystemNotFoundException;
import java.nio.file.Files;
import java.nio.file.Path;
import java.util.ArrayList;
import java.util.Collections;
import java.util.List;
import java.util.Set;
import java.util.stream.Stream;
import java.util.zip.ZipEntry;
import java.util.zip.ZipFile;
import net.bytebuddy.jar.asm.AnnotationVisitor;
import net.bytebuddy.jar.asm.ClassReader;
import net.bytebuddy.jar.asm.ClassVisitor;
import net.bytebuddy.jar.asm.Opcodes;

/** Finds the annotated classes of a folder or a JAR without loading them (chapter 8.2.1.6). */
final class ClassScan {
    private static final Set<String> WANTED = Set.of(
            "Ljakarta/persistence/Entity;", "Ljakarta/persistence/Embeddable;",
                    "Ljakarta/persistence/MappedSuperclass;",
            "Ljakarta/persistence/Converter;");
    private static final int PARTS = ClassReader.SKIP_CODE | ClassReader.SKIP_DEBUG | ClassReader.SKIP_FRAMES;

    private ClassScan() {}

    /**
     * The names of the classes with an annotation of a unit, in their order.
     *
     * @throws PersistenceException where the place isn't there, or can't be read
     */
    static List<String> names(URI place) {
        try {
            Path path = Path.of(place);
            List<String> names = Files.isDirectory(path) ? inFolder(path) : inJar(path);
            Collections.sort(names);
            return names;
        } catch (IOException | IllegalArgumentException | FileSystemNotFoundException fault) {
            throw new PersistenceException(place + " can't be read for classes: " + fault.getMessage(), fault);
        }
    }

    /** Whether a folder or a JAR has a file of this name. */
    static boolean has(URI place, String name) {
        Path path = Path.of(place);
        if (Files.isDirectory(path)) {
            return Files.exists(path.resolve(name));
        }
        try (ZipFile jar = new ZipFile(path.toFile())) {
            return jar.getEntry(name) != null;
        } catch (IOException fault) {
            throw new PersistenceException(place + " can't be read: " + fault.getMessage(), fault);
        }
    }

    private static List<String> inFolder(Path folder) throws IOException {
        List<String> names = new ArrayList<>();
        try (Stream<Path> files = Files.walk(folder)) {
            for (Path file : (Iterable<Path>) files.filter(it -> isClass(it.toString()))::iterator) {
                try (InputStream in = Files.newInputStream(file)) {
                    take(names, in.readAllBytes());
                }
            }
        }
        return names;
    }

    private static List<String> inJar(Path jar) throws IOException {
        List<String> names = new ArrayList<>();
        try (ZipFile zip = new ZipFile(jar.toFile())) {
            for (ZipEntry entry : Collections.list(zip.entries())) {
                if (isClass(entry.getName()) && !entry.getName().startsWith("META-INF/")) {
                    try (InputStream in = zip.getInputStream(entry)) {
                        take(names, in.readAllBytes());
                    }
                }
            }
        }
        return names;
    }

    private static boolean isClass(String name) {
        return name.endsWith(".class") && !name.endsWith("module-info.class");
    }

    private static void take(List<String> names, byte[] bytes) {
        // Annotations are where they were: so classes of a later Java than the reader knows are read too.
        if (((bytes[6] & 0xff) << 8 | bytes[7] & 0xff) > Opcodes.V17) {
            bytes[6] = 0;
            bytes[7] = Opcodes.V17;
        }
        ClassReader reader = new ClassReader(bytes);
        boolean[] found = new boolean[1];
        reader.accept(new ClassVisitor(Opcodes.ASM9) {
            @Override
            public AnnotationVisitor visitAnnotation(String descriptor, boolean isVisible) {
                found[0] |= WANTED.contains(descriptor);
                return null;
            }
        }, PARTS);
        if (found[0]) {
            names.add(reader.getClassName().replace('/', '.'));
        }
    }
}
