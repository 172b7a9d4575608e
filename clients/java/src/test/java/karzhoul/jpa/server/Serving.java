package karzhoul.jpa.server;

import java.io.BufferedReader;
import java.io.IOException;
import java.io.UncheckedIOException;
import java.net.UnixDomainSocketAddress;
import java.nio.ByteBuffer;
import java.nio.channels.Channels;
import java.nio.channels.SocketChannel;
import java.nio.charset.StandardCharsets;
import java.nio.file.Files;
import java.nio.file.Path;
import java.time.Duration;
import java.util.ArrayList;
import java.util.HashMap;
import java.util.List;
import java.util.Map;
import java.util.Optional;
import java.util.concurrent.TimeUnit;
import karzhoul.jpa.context.Factory;
import karzhoul.jpa.model.JsonReader;
import karzhoul.jpa.model.Programs;
import karzhoul.jpa.model.Reader;
import karzhoul.jpa.spi.UnitSettings;

/** A server of a store in a folder, as {@code karzhoul serve} of the Python client is one, and who connects to it. */
final class Serving implements AutoCloseable {
    /** Has a server begin a new run after a few objects, where one has 1,000,000. */
    static final String FEW_OBJECTS = "import karzhoul.server.renewing as s; s.DUE, s.LATE, s.LAST = 60, 120, 900000\n";

    private final Path folder;
    private final Path mapping;
    private final String address;
    private final String before;
    private final List<String> more;
    private Process server;
    private BufferedReader log;
    private Map<String, Object> said = Map.of();

    /** One at a socket in the folder. */
    Serving(Path folder, Class<?>... classes) throws IOException {
        this(folder, "unix:" + folder.resolve("app.sock"), "", List.of("--language", "wide"), classes);
    }

    /**
     * Starts one.
     *
     * @param before lines of Python that it runs first
     * @param more words of its command
     */
    Serving(Path folder, String address, String before, List<String> more, Class<?>... classes) throws IOException {
        this.folder = folder;
        this.address = address;
        this.before = before;
        this.more = more;
        mapping = folder.resolve("mapping.json");
        Files.writeString(mapping, Reader.read("served", List.of(classes)).mapping());
        start();
    }

    String url() {
        return "karzhoul:" + address;
    }

    /** The process of its program. */
    ProcessHandle program() {
        return ProcessHandle.of((Long) said.get("program")).orElseThrow();
    }

    void start() throws IOException {
        List<String> command = new ArrayList<>(List.of("serve", folder.resolve("app.db").toString(), "--mapping",
                mapping.toString(), "--listen", address, "--program", Programs.path()));
        command.addAll(more);
        server = python(before + "import sys; from karzhoul.cli.command import main; sys.exit(main(sys.argv[1:]))", command);
        log = server.errorReader(StandardCharsets.UTF_8);
        awaitLog("serving");
    }

    /** Waits for a line of its log that tells this. */
    @SuppressWarnings("unchecked")
    void awaitLog(String event) throws IOException {
        StringBuilder all = new StringBuilder();
        for (String line = log.readLine(); line != null; line = log.readLine()) {
            all.append(line).append('\n');
            if (line.startsWith("{") && ((Map<String, Object>) JsonReader.read(line)).containsValue(event)) {
                said = (Map<String, Object>) JsonReader.read(line);
                return;
            }
        }
        throw new IOException("the server has ended, and said no " + event + ": " + all);
    }

    /** Ends it by kill -9, and starts another one. */
    void killAndStart() {
        try {
            server.destroyForcibly().waitFor();
            start();
        } catch (IOException e) {
            throw new UncheckedIOException(e);
        } catch (InterruptedException e) {
            throw new IllegalStateException(e);
        }
    }

    /** Has it end by SIGTERM, once the transactions that are open have ended. */
    void beginEnd() throws IOException {
        server.toHandle().destroy();        // unlike that of the process itself it leaves its log open
        awaitLog("ending");
    }

    /** Ends it by SIGTERM. */
    void end() throws InterruptedException {
        server.destroy();
        awaitEnd();
    }

    /** Waits for its end. */
    void awaitEnd() throws InterruptedException {
        if (!server.waitFor(30, TimeUnit.SECONDS)) {
            throw new IllegalStateException("the server doesn't end");
        }
    }

    @Override
    public void close() throws InterruptedException {
        server.destroyForcibly().waitFor();
    }

    Factory factory(Class<?>... its) {
        return factory(Map.of(), Duration.ofSeconds(20), its);
    }

    Factory factory(Map<String, Object> properties, Duration wait, Class<?>... its) {
        return factory(url(), properties, wait, its);
    }

    static Factory factory(String url, Map<String, Object> properties, Duration wait, Class<?>... its) {
        return new Factory(new UnitSettings("served", Reader.read("served", List.of(its)), url, null, wait,
                Optional.empty(), properties));
    }

    /** What a process of Python prints that has connected as {@code app}. */
    String python(String text) {
        try {
            Process process = python("import sys, karzhoul\napp = karzhoul.connect(sys.argv[1])\n" + text, List.of(address));
            String said = new String(process.getInputStream().readAllBytes(), StandardCharsets.UTF_8);
            String wrong = new String(process.getErrorStream().readAllBytes(), StandardCharsets.UTF_8);
            return process.waitFor() == 0 ? said.strip() : said + wrong;
        } catch (IOException e) {
            throw new UncheckedIOException(e);
        } catch (InterruptedException e) {
            throw new IllegalStateException(e);
        }
    }

    /** What the server tells of itself, asked at its socket: at once, where a process that asks takes its time to begin. */
    @SuppressWarnings("unchecked")
    Map<String, Object> status() {
        Path socket = Path.of(address.substring("unix:".length()));
        try (SocketChannel channel = SocketChannel.open(UnixDomainSocketAddress.of(socket));
                BufferedReader in = new BufferedReader(Channels.newReader(channel, StandardCharsets.UTF_8))) {
            channel.write(ByteBuffer.wrap("{\"serve\":\"status\"}\n".getBytes(StandardCharsets.UTF_8)));
            return (Map<String, Object>) ((Map<String, Object>) JsonReader.read(in.readLine())).get("ok");
        } catch (IOException e) {
            throw new UncheckedIOException(e);
        }
    }

    private static Process python(String text, List<String> words) throws IOException {
        List<String> command = new ArrayList<>(List.of("python3", "-c", text));
        command.addAll(words);
        ProcessBuilder builder = new ProcessBuilder(command);
        builder.environment().put("PYTHONPATH", Path.of("clients/python").toAbsolutePath().toString());
        return builder.start();
    }

    /** A JVM that runs a class, which is given the address and these words. */
    Process jvm(Class<?> main, String... words) throws IOException {
        List<String> command = new ArrayList<>(List.of(Path.of(System.getProperty("java.home"), "bin", "java").toString(),
                "-XX:TieredStopAtLevel=1", "-Xmx128m", "-cp", classPath(), main.getName(), url()));
        command.addAll(List.of(words));
        return new ProcessBuilder(command).redirectError(ProcessBuilder.Redirect.INHERIT).start();
    }

    private static String classPath() {
        List<Class<?>> known = List.of(Serving.class, Factory.class, jakarta.persistence.Entity.class,
                net.bytebuddy.ByteBuddy.class);
        return String.join(":", known.stream().map(it -> it.getProtectionDomain().getCodeSource().getLocation().getPath())
                .toList());
    }

    static Map<String, Object> properties(Object... pairs) {
        Map<String, Object> properties = new HashMap<>();
        for (int i = 0; i < pairs.length; i += 2) {
            properties.put((String) pairs[i], pairs[i + 1]);
        }
        return properties;
    }
}
