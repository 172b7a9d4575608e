package karzhoul.jpa.engine;

import java.io.EOFException;
import java.io.IOException;
import java.nio.ByteBuffer;
import java.security.cert.CertificateException;
import java.security.cert.X509Certificate;
import javax.net.ssl.SSLEngine;
import javax.net.ssl.SSLEngineResult;
import javax.net.ssl.SSLEngineResult.HandshakeStatus;
import javax.net.ssl.SSLException;
import javax.net.ssl.SSLHandshakeException;

/** TLS over a socket. The JDK's own sockets of TLS can't be asked whether something has come. */
final class TlsPipe implements Pipe {
    private enum Come { SOMETHING, NOTHING, END }

    private static final ByteBuffer EMPTY = ByteBuffer.allocate(0);

    private final ChannelPipe pipe;
    private final SSLEngine engine;
    /** What has come, and isn't deciphered; and what is, and wasn't read. Both stand ready to be read. */
    private ByteBuffer coming;
    private ByteBuffer plain;
    private ByteBuffer going;

    /**
     * Agrees with the server's end upon all that TLS needs.
     *
     * @param until how long the server is waited for
     * @throws SSLException where the server isn't trusted, or speaks no TLS
     * @throws IOException where it ends the connection, or hasn't agreed in this time
     */
    TlsPipe(ChannelPipe pipe, SSLEngine engine, Deadline until) throws IOException {
        this.pipe = pipe;
        this.engine = engine;
        coming = ByteBuffer.allocate(engine.getSession().getPacketBufferSize()).flip();
        plain = ByteBuffer.allocate(engine.getSession().getApplicationBufferSize()).flip();
        going = ByteBuffer.allocate(engine.getSession().getPacketBufferSize());
        engine.beginHandshake();
        settle();
        while (engine.getHandshakeStatus() != HandshakeStatus.NOT_HANDSHAKING) {
            Come come = take(false);
            if (come == Come.END) {
                throw new EOFException("it ended the connection");
            } else if (come == Come.NOTHING) {
                pipe.awaitAlways(until);
            }
        }
        checkTime();
    }

    /** (the JDK doesn't ask that of a certificate that is trusted by itself) */
    private void checkTime() throws SSLException {
        try {
            ((X509Certificate) engine.getSession().getPeerCertificates()[0]).checkValidity();
        } catch (CertificateException e) {
            throw (SSLException) new SSLHandshakeException(e.getMessage()).initCause(e);
        }
    }

    /** Does what TLS has to do by itself, until it needs something that comes. */
    private void settle() throws IOException {
        for (;;) {
            switch (engine.getHandshakeStatus()) {
                case NEED_TASK -> engine.getDelegatedTask().run();
                case NEED_WRAP -> send(EMPTY);
                default -> {
                    return;
                }
            }
        }
    }

    /** Enciphers what is left of these, and sends it. */
    private void send(ByteBuffer bytes) throws IOException {
        SSLEngineResult result = engine.wrap(bytes, going);
        if (result.getStatus() == SSLEngineResult.Status.BUFFER_OVERFLOW) {
            going = ByteBuffer.allocate(2 * going.capacity());
            return;                                     // who calls it does so again
        }
        pipe.write(going.flip());
        going.clear();
        if (result.getStatus() == SSLEngineResult.Status.CLOSED && bytes.hasRemaining()) {
            throw new EOFException("it ended the connection");
        }
    }

    /** Deciphers one record; answers NOTHING where no whole one has come, and none is waited for. */
    private Come take(boolean waits) throws IOException {
        plain.clear();
        SSLEngineResult result;
        try {
            result = engine.unwrap(coming, plain);
        } finally {
            plain.flip();
        }
        switch (result.getStatus()) {
            case BUFFER_OVERFLOW -> plain = ByteBuffer.allocate(2 * plain.capacity()).flip();
            case BUFFER_UNDERFLOW -> {
                return receive(waits);
            }
            case CLOSED -> {
                return Come.END;
            }
            default -> settle();
        }
        return Come.SOMETHING;
    }

    private Come receive(boolean waits) throws IOException {
        if (coming.remaining() == coming.capacity()) {
            coming = ByteBuffer.allocate(2 * coming.capacity()).put(coming);
        } else {
            coming.compact();
        }
        try {
            int count = waits ? pipe.read(coming) : pipe.readNow(coming);
            return count < 0 ? Come.END : count == 0 ? Come.NOTHING : Come.SOMETHING;
        } finally {
            coming.flip();
        }
    }

    @Override
    public int read(ByteBuffer buffer) throws IOException {
        while (!plain.hasRemaining()) {
            if (take(true) == Come.END) {
                return -1;
            }
        }
        int count = Math.min(buffer.remaining(), plain.remaining());
        buffer.put(plain.slice(plain.position(), count));
        plain.position(plain.position() + count);
        return count;
    }

    @Override
    public void write(ByteBuffer bytes) throws IOException {
        while (bytes.hasRemaining()) {
            send(bytes);
        }
    }

    @Override
    public boolean isQuiet() {
        try {
            return come() == Come.NOTHING;
        } catch (IOException e) {
            return false;
        }
    }

    @Override
    public void await(Deadline until) throws IOException {
        while (come() == Come.NOTHING) {
            pipe.await(until);
        }
    }

    /** Deciphers what has come, up to something to read: a record of TLS itself, as a ticket, or half of one is none. */
    private Come come() throws IOException {
        Come come = Come.SOMETHING;
        while (!plain.hasRemaining() && come == Come.SOMETHING) {
            come = take(false);
        }
        return come;
    }

    @Override
    public void close() {
        pipe.close();
    }
}
