package karzhoul.jpa.model;

import java.io.IOException;
import java.nio.charset.StandardCharsets;
import java.nio.file.Files;
import java.nio.file.Path;
import java.util.List;

/** The program that the tests run over, which the property {@code karzhoul.program} names. */
public final class Programs {
    private Programs() {}

    public static String path() {
        return System.getProperty("karzhoul.program");
    }

    /** What the program says to a mapping: nothing where it takes it. */
    public static String judge(String mapping) throws IOException, InterruptedException {
        Path file = Files.createTempFile("mapping", ".json");
        try {
            Files.writeString(file, mapping);
            Process process = new ProcessBuilder(List.of(path(), "--mapping", file.toString())).redirectErrorStream(true).start();
            process.getOutputStream().close();
            String said = new String(process.getInputStream().readAllBytes(), StandardCharsets.UTF_8).trim();
            process.waitFor();
            return said;
        } finally {
            Files.delete(file);
        }
    }
}
