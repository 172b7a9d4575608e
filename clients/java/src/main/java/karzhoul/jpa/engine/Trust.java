package karzhoul.jpa.engine;

import jakarta.persistence.PersistenceException;
import java.io.IOException;
import java.io.InputStream;
import java.nio.file.Files;
import java.nio.file.NoSuchFileException;
import java.nio.file.Path;
import java.security.GeneralSecurityException;
import java.security.KeyStore;
import java.security.cert.Certificate;
import java.security.cert.CertificateException;
import java.security.cert.CertificateFactory;
import java.util.Collection;
import javax.net.ssl.SSLContext;
import javax.net.ssl.SSLEngine;
import javax.net.ssl.SSLParameters;
import javax.net.ssl.TrustManagerFactory;

/** Which servers are trusted that speak TLS. They are read at each connection, since certificates are renewed. */
final class Trust {
    /** The property that names a file with certificates, or the JVM's own. */
    static final String CA = "karzhoul.tls.ca";

    private static final String SYSTEM = "system";

    private final String given;

    /** @param given a file of certificates in PEM, or {@code system} for those that the JVM trusts */
    Trust(String given) {
        this.given = given;
    }

    /**
     * An end of TLS for a connection to this host, whose certificate is to name it.
     *
     * @throws PersistenceException where the certificates can't be read
     */
    SSLEngine engine(String host, int port) {
        try {
            TrustManagerFactory trusted = TrustManagerFactory.getInstance(TrustManagerFactory.getDefaultAlgorithm());
            trusted.init(given.equals(SYSTEM) ? null : certificates());
            SSLContext context = SSLContext.getInstance("TLS");
            context.init(null, trusted.getTrustManagers(), null);
            SSLEngine engine = context.createSSLEngine(host, port);
            engine.setUseClientMode(true);
            SSLParameters parameters = engine.getSSLParameters();
            parameters.setEndpointIdentificationAlgorithm("HTTPS");
            engine.setSSLParameters(parameters);
            return engine;
        } catch (NoSuchFileException e) {
            throw unread("there is no such file", e);
        } catch (CertificateException e) {
            throw unread("it has no certificates in PEM: " + e.getMessage(), e);
        } catch (IOException | GeneralSecurityException e) {
            throw unread(e.toString(), e);
        }
    }

    private PersistenceException unread(String why, Exception e) {
        return new PersistenceException("the certificates of " + CA + " can't be read: " + given + ": " + why, e);
    }

    private KeyStore certificates() throws IOException, GeneralSecurityException {
        KeyStore store = KeyStore.getInstance(KeyStore.getDefaultType());
        store.load(null, null);
        try (InputStream file = Files.newInputStream(Path.of(given))) {
            Collection<? extends Certificate> all = CertificateFactory.getInstance("X.509").generateCertificates(file);
            for (Certificate one : all) {
                store.setCertificateEntry("trusted " + store.size(), one);
            }
        }
        if (store.size() == 0) {
            throw new CertificateException("it is empty, or has other things");
        }
        return store;
    }
}
