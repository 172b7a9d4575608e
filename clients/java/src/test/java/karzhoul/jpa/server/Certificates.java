package karzhoul.jpa.server;

import static org.junit.jupiter.api.Assertions.assertEquals;

import java.io.IOException;
import java.nio.charset.StandardCharsets;
import java.nio.file.Files;
import java.nio.file.Path;
import java.util.ArrayList;
import java.util.List;

/** Certificates for tests, made by openssl: each as NAME.pem in a folder, beside NAME.key. */
public final class Certificates {
    private Certificates() {}

    /** The key of a certificate. */
    public static Path key(Path certificate) {
        return Path.of(certificate.toString().replace(".pem", ".key"));
    }

    /** One of this host, signed by itself. */
    public static Path of(Path folder, String name, String host) throws IOException, InterruptedException {
        Path certificate = folder.resolve(name + ".pem");
        openssl("req", "-x509", "-newkey", "rsa:2048", "-nodes", "-days", "2", "-subj", "/CN=karzhoul", "-addext",
            "subjectAltName=" + host, "-keyout", key(certificate).toString(), "-out", certificate.toString());
        return certificate;
    }

    /** One of this host whose time was over yesterday, signed by an authority, or by itself where that is null. */
    static Path expired(Path folder, String name, String host, Path authority) throws IOException, InterruptedException {
        Path certificate = folder.resolve(name + ".pem");
        Path request = folder.resolve(name + ".csr");
        Path extensions = Files.writeString(folder.resolve(name + ".ext"), "subjectAltName=" + host + "\n");
        openssl("req", "-newkey", "rsa:2048", "-nodes", "-subj", "/CN=" + name, "-keyout", key(certificate).toString(),
            "-out", request.toString());
        List<String> signed = new ArrayList<>(List.of("x509", "-req", "-in", request.toString(), "-days", "-1", "-extfile",
            extensions.toString(), "-out", certificate.toString()));
        signed.addAll(authority == null ? List.of("-signkey", key(certificate).toString())
            : List.of("-CA", authority.toString(), "-CAkey", key(authority).toString(), "-CAcreateserial"));
        openssl(signed.toArray(String[]::new));
        return certificate;
    }

    private static void openssl(String... words) throws IOException, InterruptedException {
        List<String> command = new ArrayList<>(List.of("openssl"));
        command.addAll(List.of(words));
        Process made = new ProcessBuilder(command).redirectErrorStream(true).start();
        String said = new String(made.getInputStream().readAllBytes(), StandardCharsets.UTF_8);
        assertEquals(0, made.waitFor(), said);
    }
}
