import java.io.ByteArrayInputStream;
import java.io.ByteArrayOutputStream;
import java.io.DataInputStream;
import java.io.DataOutputStream;
import java.io.IOException;
import java.io.UncheckedIOException;
import java.nio.file.Files;
import java.nio.file.Path;
import java.util.regex.Pattern;

/**
 * Writes the door's classes for {@code javax.persistence}, which the standard was called before version 3.0.
 *
 * <p>{@code JavaxClasses FROM TO}: copies a folder, and changes the names of the standard in the constants of each class
 * and in the names of files. Both names change places, so what is said of the other one is still said of the other one.
 */
public final class JavaxClasses {
    private static final Pattern STANDARD = Pattern.compile("(jakarta|javax)(?=[./]persistence)");
    /** What the JARs of {@code javax.persistence} call their module, and those of {@code jakarta} theirs. */
    private static final String OLD_MODULE = "java.persistence";
    private static final String NEW_MODULE = "jakarta.persistence";

    private JavaxClasses() {}

    public static void main(String[] words) throws IOException {
        Path from = Path.of(words[0]);
        Path to = Path.of(words[1]);
        try (var files = Files.walk(from)) {
            files.filter(Files::isRegularFile).forEach(file -> copy(file, to.resolve(moved(from.relativize(file).toString()))));
        }
    }

    private static void copy(Path from, Path to) {
        try {
            Files.createDirectories(to.getParent());
            byte[] bytes = Files.readAllBytes(from);
            Files.write(to, to.toString().endsWith(".class") ? classFile(bytes, to.endsWith("module-info.class")) : bytes);
        } catch (IOException fault) {
            throw new UncheckedIOException(fault);
        }
    }

    private static String moved(String text) {
        return STANDARD.matcher(text).replaceAll(name -> name.group().equals("jakarta") ? "javax" : "jakarta");
    }

    /** A class file (chapter 4 of Java's virtual machine): its constants name all that it uses. */
    private static byte[] classFile(byte[] old, boolean isModule) throws IOException {
        ByteArrayOutputStream bytes = new ByteArrayOutputStream(old.length);
        try (DataInputStream in = new DataInputStream(new ByteArrayInputStream(old));
                DataOutputStream out = new DataOutputStream(bytes)) {
            out.write(in.readNBytes(8));
            int count = in.readUnsignedShort();
            out.writeShort(count);
            for (int at = 1; at < count; at++) {
                at += constant(in, out, isModule);
            }
            in.transferTo(out);
        }
        return bytes.toByteArray();
    }

    /** Copies a constant; answers how many places it takes beyond its own. */
    private static int constant(DataInputStream in, DataOutputStream out, boolean isModule) throws IOException {
        int tag = in.readUnsignedByte();
        out.writeByte(tag);
        if (tag == 1) {
            String text = in.readUTF();
            out.writeUTF(isModule && text.equals(NEW_MODULE) ? OLD_MODULE : moved(text));
            return 0;
        }
        out.write(in.readNBytes(switch (tag) {
            case 3, 4, 9, 10, 11, 12, 17, 18 -> 4;
            case 5, 6 -> 8;
            case 7, 8, 16, 19, 20 -> 2;
            case 15 -> 3;
            default -> throw new IOException("a constant of kind " + tag + ", which isn't known");
        }));
        return tag == 5 || tag == 6 ? 1 : 0;
    }
}
