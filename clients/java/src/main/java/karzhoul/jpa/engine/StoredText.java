package karzhoul.jpa.engine;

import static karzhoul.jpa.model.StoredDescription.ENTITY;
import static karzhoul.jpa.model.StoredDescription.PART;
import static karzhoul.jpa.model.StoredDescription.TEXT;

import java.io.ByteArrayOutputStream;
import java.io.IOException;
import java.nio.charset.StandardCharsets;
import java.nio.file.Files;
import java.nio.file.Path;
import java.util.HexFormat;
import java.util.List;
import java.util.concurrent.TimeUnit;
import karzhoul.jpa.model.StoredDescription;

/** What a store says of itself, read by runs of the program of its own: whatever mapping opens it. */
public final class StoredText {
    private StoredText() {}

    /**
     * Reads it; nothing is written.
     *
     * @return null where the store says nothing, as that of another client
     * @throws IOException where the program can't be started, or doesn't open the store, with its words
     */
    public static String read(String program, Path store) throws IOException, InterruptedException {
        Path mapping = Files.createTempFile("karzhoul", ".json");
        try {
            Files.writeString(mapping, StoredDescription.mapping());
            ByteArrayOutputStream bytes = new ByteArrayOutputStream();
            for (int part = 1;; part++) {
                String line = ask(List.of(program, "--mapping", mapping.toString(), "--db", store.toString(), "--query",
                        "SELECT d." + TEXT + " FROM " + ENTITY + " d WHERE d." + PART + " = " + part));
                if (line.isEmpty()) {
                    return part == 1 ? null : bytes.toString(StandardCharsets.UTF_8);
                }
                bytes.write(HexFormat.of().parseHex(line, "{\"hex\":\"".length(), line.length() - "\"}".length()));
            }
        } finally {
            Files.delete(mapping);
        }
    }

    private static String ask(List<String> command) throws IOException, InterruptedException {
        Process process = ProgramProcess.start(command, ProcessBuilder.Redirect.PIPE);
        process.getOutputStream().close();
        String answer = new String(process.getInputStream().readAllBytes(), StandardCharsets.UTF_8).trim();
        String words = new String(process.getErrorStream().readAllBytes(), StandardCharsets.UTF_8).trim();
        if (!process.waitFor(1, TimeUnit.MINUTES) || process.exitValue() != 0) {
            process.destroy();
            throw new IOException("the description of the store can't be read" + (words.isEmpty() ? "" : ": " + words));
        }
        return answer;
    }
}
