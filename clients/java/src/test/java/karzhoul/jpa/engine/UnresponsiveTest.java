package karzhoul.jpa.engine;

import static org.junit.jupiter.api.Assertions.assertEquals;
import static org.junit.jupiter.api.Assertions.assertThrows;
import static org.junit.jupiter.api.Assertions.assertTrue;

import jakarta.persistence.PersistenceException;
import java.io.IOException;
import java.io.OutputStream;
import java.net.InetAddress;
import java.net.ServerSocket;
import java.net.Socket;
import java.net.SocketException;
import java.net.StandardSocketOptions;
import java.nio.channels.SocketChannel;
import java.nio.charset.StandardCharsets;
import java.nio.file.Files;
import java.nio.file.Path;
import java.util.ArrayList;
import java.util.List;
import java.util.Map;
import java.util.concurrent.CompletableFuture;
import java.util.concurrent.TimeUnit;
import karzhoul.jpa.server.Certificates;
import org.junit.jupiter.api.Test;
import org.junit.jupiter.api.Timeout;
import org.junit.jupiter.api.io.TempDir;

/** A host that doesn't answer, or says nothing of use: it is waited for, and no longer. */
@Timeout(60)
class UnresponsiveTest {
    private static final long PATIENCE = 700;
    private static final String SILENT = "who serves at it doesn't answer: nothing came within ";

    /** Within which a server on a busy machine agrees upon TLS. */
    private static final long MORE = 8_000;

    @TempDir Path folder;

    /** What is said of one at this port, which is waited for the whole patience, over TLS where it trusts a certificate. */
    private static String refused(int port, Path trusted, long patience) {
        Map<String, Object> properties = trusted == null ? Map.of() : Map.of(Trust.CA, trusted);
        ServerWay way = ServerWay.of(ServerAddress.of("tcp:127.0.0.1:" + port), properties);
        long start = System.nanoTime();
        String said = assertThrows(NotServed.class, () -> new ServerConnection(way, Deadline.in(patience))).getMessage();
        assertTrue(System.nanoTime() - start >= TimeUnit.MILLISECONDS.toNanos(patience - 100), "it was waited for: " + said);
        return said.replace("tcp:127.0.0.1:" + port, "it");
    }

    /** What one does who is connected to. */
    private interface Host {
        void serve(Socket one) throws Exception;
    }

    private static String refused(Host host, Path trusted) throws Exception {
        try (ServerSocket socket = new ServerSocket(0, 1, InetAddress.getLoopbackAddress())) {
            CompletableFuture<Void> serving = CompletableFuture.runAsync(() -> accept(socket, host));
            String said = refused(socket.getLocalPort(), trusted, PATIENCE);
            serving.get(30, TimeUnit.SECONDS);
            return said;
        }
    }

    private static void accept(ServerSocket socket, Host host) {
        try (Socket one = socket.accept()) {
            host.serve(one);
            one.getInputStream().readAllBytes();
        } catch (SocketException gone) {
            // it was given up
        } catch (Exception e) {
            throw new IllegalStateException(e);
        }
    }

    /** A queue that is full has the system let what comes be lost, as a host does that has no power. */
    @Test
    void whoDoesntAnswerAtAll() throws IOException {
        try (ServerSocket full = new ServerSocket(0, 1, InetAddress.getLoopbackAddress())) {
            List<SocketChannel> queue = new ArrayList<>();
            for (int i = 0; i < 4; i++) {
                SocketChannel one = SocketChannel.open();
                one.configureBlocking(false);
                one.connect(full.getLocalSocketAddress());
                queue.add(one);
            }
            assertEquals("nobody answers at it: no connection within 700 milliseconds", refused(full.getLocalPort(), null, PATIENCE));
            for (SocketChannel one : queue) {
                one.close();
            }
        }
    }

    @Test
    void whoSaysNothing() throws Exception {
        assertEquals(SILENT + "700 milliseconds; where it speaks TLS, the property karzhoul.tls.ca names the file with the"
            + " certificates to trust", refused(one -> { }, null));
        Path certificate = Certificates.of(folder, "server", "IP:127.0.0.1");
        assertEquals("who serves at it doesn't agree upon TLS: nothing came within 700 milliseconds", refused(one -> { }, certificate));
    }

    @Test
    void whoSaysHalfOfIt() throws Exception {
        String half = "{\"ok\":{\"serve\":";
        String said = refused(one -> one.getOutputStream().write(half.getBytes(StandardCharsets.US_ASCII)), null);
        assertTrue(said.startsWith(SILENT + "700 milliseconds; "), said);
        Path certificate = Certificates.of(folder, "server", "IP:127.0.0.1");
        byte[] beginning = {22, 3, 3, 64, 0, 2};                    // of a record that would have 16 KB
        said = refused(one -> one.getOutputStream().write(beginning), certificate);
        assertEquals("who serves at it doesn't agree upon TLS: nothing came within 700 milliseconds", said);
    }

    @Test
    void whoSaysALittleNowAndThen() throws Exception {
        Host host = one -> {
            OutputStream out = one.getOutputStream();
            out.write(new byte[] {22, 3, 3, 64, 0});
            for (;;) {
                out.write(0);
                TimeUnit.MILLISECONDS.sleep(100);
            }
        };
        Path certificate = Certificates.of(folder, "server", "IP:127.0.0.1");
        assertEquals("who serves at it doesn't agree upon TLS: nothing came within 700 milliseconds", refused(host, certificate));
        assertTrue(refused(host, null).startsWith(SILENT + "700 milliseconds; "));
    }

    @Test
    void whatHasNoEndIsntHeardOut() throws Exception {
        Host host = one -> {
            byte[] much = "x".repeat(1 << 16).getBytes(StandardCharsets.US_ASCII);
            for (;;) {
                one.getOutputStream().write(much);
            }
        };
        try (ServerSocket socket = new ServerSocket(0, 1, InetAddress.getLoopbackAddress())) {
            CompletableFuture<Void> serving = CompletableFuture.runAsync(() -> accept(socket, host));
            ServerWay way = ServerWay.of(ServerAddress.of("tcp:127.0.0.1:" + socket.getLocalPort()), Map.of());
            String said = assertThrows(NotServed.class, () -> new ServerConnection(way, Deadline.in(60_000))).getMessage();
            assertTrue(said.contains(": it says more than a server does; "), said);
            serving.get(30, TimeUnit.SECONDS);
        }
    }

    /** One that sends tickets behind the agreement, as OpenSSL does: they are nothing that is read. */
    @Test
    void whoSpeaksTlsAndSaysNothing() throws Exception {
        Path certificate = Certificates.of(folder, "server", "IP:127.0.0.1");
        int port;
        try (ServerSocket socket = new ServerSocket(0)) {
            port = socket.getLocalPort();
        }
        Process server = new ProcessBuilder("openssl", "s_server", "-accept", "127.0.0.1:" + port, "-cert", certificate.toString(),
            "-key", Certificates.key(certificate).toString()).redirectErrorStream(true).start();
        try {
            String line = "";
            while (!line.equals("ACCEPT")) {
                line = server.inputReader().readLine();
            }
            assertEquals(SILENT + "8 seconds", refused(port, certificate, MORE));
        } finally {
            server.destroyForcibly().waitFor();
        }
    }

    @Test
    void aHostThatIsntKnown() {
        ServerWay way = ServerWay.of(ServerAddress.of("tcp:nobody.invalid:7117"), Map.of());
        assertEquals("nobody serves at tcp:nobody.invalid:7117: its host isn't known",
            assertThrows(NotServed.class, () -> new ServerConnection(way, Deadline.in(PATIENCE))).getMessage());
    }

    /** Else who waits for a reply would never hear that its host has vanished. */
    @Test
    void theSystemLooksWhetherAHostIsStillThere() throws IOException {
        try (ServerSocket socket = new ServerSocket(0, 1, InetAddress.getLoopbackAddress());
                SocketChannel channel = ServerAddress.of("tcp:127.0.0.1:" + socket.getLocalPort()).connected(Deadline.in(PATIENCE))) {
            assertTrue(channel.getOption(StandardSocketOptions.SO_KEEPALIVE));
        }
    }

    @Test
    void certificatesThatCantBeReadAreNamed() throws IOException {
        Path words = Files.writeString(folder.resolve("words.pem"), "no certificate\n");
        for (Path one : List.of(words, folder)) {
            Trust trust = new Trust(one.toString());
            String said = assertThrows(PersistenceException.class, () -> trust.engine("127.0.0.1", 7117)).getMessage();
            assertTrue(said.startsWith("the certificates of karzhoul.tls.ca can't be read: " + one + ": "), said);
        }
    }
}
