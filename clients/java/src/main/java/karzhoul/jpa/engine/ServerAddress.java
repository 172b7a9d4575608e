package karzhoul.jpa.engine;

import jakarta.persistence.PersistenceException;
import java.io.IOException;
import java.net.InetSocketAddress;
import java.net.StandardProtocolFamily;
import java.net.StandardSocketOptions;
import java.net.UnixDomainSocketAddress;
import java.nio.channels.SocketChannel;
import java.nio.file.Path;

/**
 * Where a server of a store listens.
 *
 * @param path of its socket in the file system; null where it has a host
 * @param host its host, or null
 * @param port the port there
 */
record ServerAddress(Path path, String host, int port) {
    private static final String UNIX = "unix:";
    private static final String TCP = "tcp:";
    private static final int PORTS = 1 << 16;

    static boolean isOne(String store) {
        return store.startsWith(UNIX) || store.startsWith(TCP);
    }

    /**
     * The address that a word names, as {@code unix:/run/app.sock} or {@code tcp:127.0.0.1:7117}.
     *
     * @throws PersistenceException where it names none
     */
    static ServerAddress of(String word) {
        if (word.startsWith(UNIX) && word.length() > UNIX.length()) {
            return new ServerAddress(Path.of(word.substring(UNIX.length())).toAbsolutePath().normalize(), null, 0);
        }
        int colon = word.lastIndexOf(':');
        if (word.startsWith(TCP) && colon > TCP.length() && word.substring(colon + 1).matches("[0-9]{1,5}")) {
            String host = word.substring(TCP.length(), colon).replaceAll("^\\[|\\]$", "");
            int port = Integer.parseInt(word.substring(colon + 1));
            if (port < PORTS && !host.isEmpty()) {
                return new ServerAddress(null, host, port);
            }
        }
        throw new PersistenceException(word + " is no address of a server: write karzhoul:unix:/run/app.sock or"
            + " karzhoul:tcp:127.0.0.1:7117");
    }

    /** A channel that is connected to it. Who is interrupted meanwhile connects, and stays interrupted. */
    SocketChannel connected(Deadline until) throws IOException {
        boolean isInterrupted = Thread.interrupted();
        SocketChannel channel = path == null ? SocketChannel.open() : SocketChannel.open(StandardProtocolFamily.UNIX);
        try {
            if (path == null) {
                channel.setOption(StandardSocketOptions.TCP_NODELAY, true);
                channel.setOption(StandardSocketOptions.SO_KEEPALIVE, true);        // a host may vanish without a word
                channel.socket().connect(new InetSocketAddress(host, port), (int) Math.max(1, until.left()));
            } else {
                channel.connect(UnixDomainSocketAddress.of(path));
            }
            return channel;
        } catch (IOException | RuntimeException e) {
            channel.close();
            throw e;
        } finally {
            if (isInterrupted) {
                Thread.currentThread().interrupt();
            }
        }
    }

    @Override
    public String toString() {
        return path == null ? TCP + (host.contains(":") ? "[" + host + "]" : host) + ":" + port : UNIX + path;
    }
}
