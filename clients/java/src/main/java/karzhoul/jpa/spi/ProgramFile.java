package karzhoul.jpa.spi;

import java.io.IOException;
import java.io.InputStream;
import java.nio.charset.StandardCharsets;
import java.nio.file.Files;
import java.nio.file.Path;
import java.nio.file.StandardCopyOption;
import java.nio.file.attribute.PosixFilePermissions;
import java.security.MessageDigest;
import java.security.NoSuchAlgorithmException;
import java.util.HexFormat;
import java.util.List;
import java.util.Optional;
import karzhoul.jpa.model.Fault;

/** The program: the one that a unit names, or the one in the JAR, which is unpacked once and checked by its sum. */
public final class ProgramFile {
    /** The property that names a program, of a unit or of the JVM. */
    public static final String PROPERTY = Settings.PROGRAM;

    static final String RESOURCE = "/karzhoul/jpa/program/jpa";
    static final String SUM = RESOURCE + ".sha256";
    private static final String REMEDY = "Name a program with " + Settings.PROGRAM;

    private final String place;
    private final List<Fault> faults;

    /**
     * One that wasn't looked for yet.
     *
     * @param place of what unit the program is, for words
     * @param faults is given what is wrong with it
     */
    public ProgramFile(String place, List<Fault> faults) {
        this.place = place;
        this.faults = faults;
    }

    /** The program's path; null where there is none, which is told then. */
    public String find(Optional<String> named) {
        if (named.isEmpty()) {
            return unpack();
        }
        // A name without a slash is looked for on the PATH when it is started.
        if (named.get().contains("/") && !Files.isExecutable(Path.of(named.get()))) {
            tell(Settings.PROGRAM + " is " + named.get() + ", which is no file that can be run",
                    "Name the program jpa");
            return null;
        }
        return named.get();
    }

    private String unpack() {
        boolean isServed = System.getProperty("os.name").equals("Linux") && System.getProperty("os.arch")
                .equals("amd64");
        if (!isServed) {
            tell("the program in the JAR runs on Linux on x86-64 alone", "Build it for this machine, and name it with "
                    + Settings.PROGRAM);
            return null;
        }
        try (InputStream sumFile = ProgramFile.class.getResourceAsStream(SUM)) {
            if (sumFile == null) {
                tell("there is no program in the JAR", REMEDY);
                return null;
            }
            String sum = new String(sumFile.readAllBytes(), StandardCharsets.US_ASCII).trim();
            Path file = cache().resolve("jpa-" + sum);
            if (!Files.isExecutable(file) || !sum(Files.readAllBytes(file)).equals(sum)) {
                write(file, sum);
            }
            return file.toString();
        } catch (IOException fault) {
            tell("the program in the JAR can't be unpacked: " + fault, REMEDY);
            return null;
        }
    }

    private static Path cache() throws IOException {
        String given = System.getenv("XDG_CACHE_HOME");
        Path caches = given != null && !given.isEmpty() ? Path.of(given) : Path.of(System.getProperty("user.home"),
                ".cache");
        return Files.createDirectories(caches.resolve("karzhoul"));
    }

    /** Another JVM that does the same at this moment sees the file whole, or not at all. */
    private static void write(Path file, String sum) throws IOException {
        byte[] program;
        try (InputStream in = ProgramFile.class.getResourceAsStream(RESOURCE)) {
            if (in == null) {
                throw new IOException("the program is missing");
            }
            program = in.readAllBytes();
        }
        if (!sum(program).equals(sum)) {
            throw new IOException("its sum is not the one beside it");
        }
        Path part = Files.createTempFile(file.getParent(), "jpa-", ".part",
                PosixFilePermissions.asFileAttribute(PosixFilePermissions.fromString("rwx------")));
        try {
            Files.write(part, program);
            Files.move(part, file, StandardCopyOption.ATOMIC_MOVE, StandardCopyOption.REPLACE_EXISTING);
        } finally {
            Files.deleteIfExists(part);
        }
    }

    private static String sum(byte[] bytes) {
        try {
            return HexFormat.of().formatHex(MessageDigest.getInstance("SHA-256").digest(bytes));
        } catch (NoSuchAlgorithmException never) {
            throw new IllegalStateException(never);
        }
    }

    private void tell(String what, String remedy) {
        faults.add(new Fault(place, what, remedy));
    }
}
