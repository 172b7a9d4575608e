package karzhoul.jpa.server;

import static org.junit.jupiter.api.Assertions.assertEquals;
import static org.junit.jupiter.api.Assertions.assertThrows;
import static org.junit.jupiter.api.Assertions.assertTrue;

import jakarta.persistence.EntityManager;
import jakarta.persistence.PersistenceException;
import java.io.IOException;
import java.net.ServerSocket;
import java.net.Socket;
import java.nio.charset.StandardCharsets;
import java.nio.file.Files;
import java.nio.file.Path;
import java.time.Duration;
import java.util.ArrayList;
import java.util.List;
import java.util.Map;
import java.util.concurrent.CompletableFuture;
import java.util.concurrent.ExecutorService;
import java.util.concurrent.Executors;
import java.util.concurrent.TimeUnit;
import karzhoul.jpa.context.Factory;
import org.junit.jupiter.api.BeforeEach;
import org.junit.jupiter.api.Test;
import org.junit.jupiter.api.Timeout;
import org.junit.jupiter.api.io.TempDir;

/** A server that speaks TLS: who trusts it is served, and who doesn't is told why. */
@Timeout(180)
class TlsTest {
    private static final Duration WAIT = Duration.ofSeconds(20);

    @TempDir Path folder;
    private Path token;

    @BeforeEach
    void token() throws IOException {
        token = Files.writeString(folder.resolve("token"), "t".repeat(32) + "\n");
    }

    private Path certificate(String name, String host) throws Exception {
        return Certificates.of(folder, name, host);
    }

    private Serving serving(Path certificate) throws IOException {
        int port;
        try (ServerSocket socket = new ServerSocket(0)) {
            port = socket.getLocalPort();
        }
        return new Serving(folder, "tcp:127.0.0.1:" + port, "", List.of("--language", "wide", "--token-file", token.toString(),
            "--tls-cert", certificate.toString(), "--tls-key", Certificates.key(certificate).toString()), Counter.class);
    }

    private Factory factory(Serving server, Object trusted) {
        Map<String, Object> properties = trusted == null ? Map.of("karzhoul.token.file", token)
            : Map.of("karzhoul.token.file", token, "karzhoul.tls.ca", trusted);
        return server.factory(properties, WAIT, Counter.class);
    }

    private String refused(Serving server, Object trusted) {
        return assertThrows(PersistenceException.class, () -> factory(server, trusted)).getMessage();
    }

    @Test
    void whoTrustsItsCertificateIsServed() throws Exception {
        Path certificate = certificate("server", "IP:127.0.0.1");
        try (Serving server = serving(certificate); Factory factory = factory(server, certificate)) {
            EntityManager em = factory.createEntityManager();
            em.getTransaction().begin();
            for (int i = 0; i < 3_000; i++) {               // more than a record of TLS takes, and than a socket
                em.persist(new Counter(i));
            }
            em.getTransaction().commit();
            em.clear();
            assertEquals(3_000, em.createQuery("SELECT c FROM Counter c").getResultList().size());
            em.getTransaction().begin();
            Thread.currentThread().interrupt();
            em.find(Counter.class, 7).count = 5;
            assertTrue(Thread.interrupted(), "it stays interrupted");
            em.getTransaction().commit();
            server.killAndStart();
            EntityManager next = factory.createEntityManager();
            assertEquals(5, next.find(Counter.class, 7).count);
            next.close();
        }
    }

    @Test
    void whoDoesntTrustItIsToldWhy() throws Exception {
        Path other = certificate("other", "IP:127.0.0.1");
        try (Serving server = serving(certificate("server", "IP:127.0.0.1"))) {
            String untrusted = "the server at " + server.url().substring("karzhoul:".length()) + " isn't trusted (karzhoul.tls.ca): ";
            String said = refused(server, other);
            assertTrue(said.startsWith(untrusted), said);
            said = refused(server, "system");
            assertTrue(said.startsWith(untrusted), said);
            said = refused(server, folder.resolve("none.pem"));
            assertTrue(said.startsWith("the certificates of karzhoul.tls.ca can't be read: ")
                && said.endsWith("none.pem: there is no such file"), said);
            for (Path without : List.of(token, Certificates.key(folder.resolve("server.pem")), Files.createFile(folder.resolve("empty.pem")))) {
                said = refused(server, without);
                assertTrue(said.startsWith("the certificates of karzhoul.tls.ca can't be read: " + without
                    + ": it has no certificates in PEM: "), said);
            }
            said = refused(server, null);
            assertTrue(said.startsWith("nobody serves at tcp:127.0.0.1:") && said.endsWith("; where it speaks TLS, the property"
                + " karzhoul.tls.ca names the file with the certificates to trust"), said);
        }
    }

    @Test
    void aCertificateOfAnotherHostIsNotItsOwn() throws Exception {
        Path certificate = certificate("server", "DNS:shop.example,IP:127.0.0.2");
        try (Serving server = serving(certificate)) {
            String said = refused(server, certificate);
            assertTrue(said.contains(" isn't trusted (karzhoul.tls.ca): ") && said.contains("127.0.0.1"), said);
        }
    }

    /** Also where that very certificate is trusted. */
    @Test
    void aCertificateWhoseTimeIsOverIsntTrusted() throws Exception {
        Path authority = certificate("authority", "DNS:authority.example");
        Path signed = Certificates.expired(folder, "signed", "IP:127.0.0.1", authority);
        Path alone = Certificates.expired(folder, "alone", "IP:127.0.0.1", null);
        for (Path certificate : List.of(signed, alone)) {
            try (Serving server = serving(certificate)) {
                String said = refused(server, certificate == signed ? authority : alone);
                assertTrue(said.startsWith("the server at " + server.url().substring("karzhoul:".length())
                    + " isn't trusted (karzhoul.tls.ca): a certificate's time is over: NotAfter: "), said);
            }
        }
    }

    @Test
    void threadsThatOpenAndCloseFactories() throws Exception {
        Path certificate = certificate("server", "IP:127.0.0.1");
        try (Serving server = serving(certificate)) {
            List<CompletableFuture<Void>> all = new ArrayList<>();
            ExecutorService threads = Executors.newFixedThreadPool(8);
            for (int i = 0; i < 8; i++) {
                int first = 10 * i;
                all.add(CompletableFuture.runAsync(() -> {
                    for (int id = first; id < first + 4; id++) {
                        store(server, certificate, id);
                    }
                }, threads));
            }
            for (CompletableFuture<Void> each : all) {
                each.get(120, TimeUnit.SECONDS);
            }
            threads.shutdown();
            try (Factory factory = factory(server, certificate)) {
                EntityManager em = factory.createEntityManager();
                assertEquals(32L, em.createQuery("SELECT COUNT(c) FROM Counter c").getSingleResult());
                em.close();
            }
        }
    }

    private void store(Serving server, Path certificate, int id) {
        try (Factory factory = factory(server, certificate)) {
            EntityManager em = factory.createEntityManager();
            em.getTransaction().begin();
            em.persist(new Counter(id));
            em.getTransaction().commit();
            em.close();
        }
    }

    @Test
    void whoSpeaksNoTlsIsTold() throws Exception {
        Path certificate = certificate("server", "IP:127.0.0.1");
        try (Serving plain = new Serving(folder, Counter.class)) {
            String said = refused(plain, certificate);
            assertTrue(said.contains("karzhoul.tls.ca is of karzhoul:tcp:HOST:PORT, and unix:"), said);
        }
        try (ServerSocket socket = new ServerSocket(0)) {
            CompletableFuture<Void> answer = CompletableFuture.runAsync(() -> {
                try (Socket one = socket.accept()) {
                    one.getInputStream().read();
                    one.getOutputStream().write("{\"error\":{\"name\":\"BadLine\",\"no\":3},\"events\":[]}\n".getBytes(StandardCharsets.US_ASCII));
                    one.shutdownOutput();
                    one.getInputStream().readAllBytes();
                } catch (IOException e) {
                    throw new IllegalStateException(e);
                }
            });
            Map<String, Object> properties = Map.of("karzhoul.tls.ca", certificate);
            String said = assertThrows(PersistenceException.class, () -> Serving.factory(
                "karzhoul:tcp:127.0.0.1:" + socket.getLocalPort(), properties, WAIT, Counter.class)).getMessage();
            assertTrue(said.contains(" speaks no TLS that is understood: ")
                && said.endsWith("; without karzhoul.tls.ca none is spoken"), said);
            answer.get(30, TimeUnit.SECONDS);
        }
    }
}
