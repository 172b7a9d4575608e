package karzhoul.jpa.engine;

import jakarta.persistence.PersistenceException;
import java.io.IOException;
import java.net.SocketTimeoutException;
import java.net.UnknownHostException;
import java.nio.file.Files;
import java.nio.file.Path;
import java.security.cert.CertificateException;
import java.security.cert.CertificateExpiredException;
import java.security.cert.CertificateNotYetValidException;
import java.util.Map;
import javax.net.ssl.SSLException;

/**
 * How a server is reached, and what it is shown.
 *
 * @param address where it listens
 * @param tokenFile the file with its token; null where it asks for none
 * @param trust which servers are trusted; null where no TLS is spoken
 */
record ServerWay(ServerAddress address, Path tokenFile, Trust trust) {
    /** The property that names the file with a server's token. */
    static final String TOKEN_FILE = "karzhoul.token.file";

    /** How many milliseconds a server is waited for, where nobody says how long. */
    static final long PATIENCE = 30_000;

    /**
     * The way that the properties of a unit say.
     *
     * @throws PersistenceException where they trust certificates at a socket of this machine
     */
    static ServerWay of(ServerAddress address, Map<String, Object> properties) {
        Object token = properties.get(TOKEN_FILE);
        Object trusted = properties.get(Trust.CA);
        if (trusted != null && address.path() != null) {
            throw new PersistenceException(Trust.CA + " is of karzhoul:tcp:HOST:PORT, and " + address
                + " is a socket of this machine: leave the property out");
        }
        return new ServerWay(address, token == null ? null : Path.of(token.toString()),
            trusted == null ? null : new Trust(trusted.toString().trim()));
    }

    /**
     * Connects.
     *
     * @param until how long the server is waited for
     * @throws NotServed where nobody listens there, or answers in this time
     * @throws PersistenceException where who listens isn't trusted, or speaks no TLS
     */
    Pipe connected(Deadline until) {
        ChannelPipe pipe;
        try {
            pipe = new ChannelPipe(address.connected(until));
        } catch (UnknownHostException e) {
            throw new NotServed("nobody serves at " + address + ": its host isn't known", e);
        } catch (SocketTimeoutException e) {
            throw new NotServed("nobody answers at " + address + ": no connection within " + until, e);
        } catch (IOException | RuntimeException e) {
            throw new NotServed("nobody serves at " + address + ": " + (e.getMessage() == null ? e : e.getMessage()), e);
        }
        if (trust == null) {
            return pipe;
        }
        try {
            return new TlsPipe(pipe, trust.engine(address.host(), address.port()), until);
        } catch (SSLException e) {
            pipe.close();
            throw new PersistenceException(refused(e), e);
        } catch (Unanswered e) {
            pipe.close();
            throw new NotServed("who serves at " + address + " doesn't agree upon TLS: " + e.getMessage(), e);
        } catch (IOException e) {
            pipe.close();
            throw new NotServed("nobody speaks TLS at " + address + ": " + e.getMessage(), e);
        } catch (RuntimeException e) {
            pipe.close();
            throw e;
        }
    }

    private String refused(SSLException fault) {
        String why = distrust(fault);
        return why != null ? "the server at " + address + " isn't trusted (" + Trust.CA + "): " + why
            : "the server at " + address + " speaks no TLS that is understood: " + fault.getMessage() + "; without "
                + Trust.CA + " none is spoken";
    }

    /** What is wrong with its certificate; null where it is something else. */
    private static String distrust(SSLException fault) {
        String why = null;
        for (Throwable cause = fault; cause != null; cause = cause.getCause()) {
            if (cause instanceof CertificateExpiredException) {
                return "a certificate's time is over: " + cause.getMessage();
            } else if (cause instanceof CertificateNotYetValidException) {
                return "a certificate's time has not come: " + cause.getMessage();
            } else if (why == null && cause instanceof CertificateException) {
                why = cause.getMessage();
            }
        }
        return why;
    }

    /** The member of the first line that shows the token. */
    String token() {
        if (tokenFile == null) {
            return "";
        }
        try {
            return ",\"token\":\"" + Files.readString(tokenFile).strip().replaceAll("([\"\\\\])", "\\\\$1") + "\"";
        } catch (IOException e) {
            throw new PersistenceException("the token of " + address + " can't be read (" + TOKEN_FILE + "): " + e, e);
        }
    }

    /** What to say behind the words of one that was connected to, and said nothing of use. */
    String hint() {
        return trust == null && address.path() == null
            ? "; where it speaks TLS, the property " + Trust.CA + " names the file with the certificates to trust" : "";
    }
}
