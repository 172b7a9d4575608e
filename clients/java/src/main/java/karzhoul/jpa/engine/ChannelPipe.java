package karzhoul.jpa.engine;

import java.io.IOException;
import java.io.InterruptedIOException;
import java.nio.ByteBuffer;
import java.nio.channels.SelectionKey;
import java.nio.channels.Selector;
import java.nio.channels.SocketChannel;

/**
 * A socket. The JDK shuts a channel whose thread is interrupted while it reads; this one is asked
 * without waiting, and waited for by a selector: so a thread that is interrupted ends no connection that others share.
 */
final class ChannelPipe implements Pipe {
    private final SocketChannel channel;
    private final Selector selector;
    private final SelectionKey key;

    ChannelPipe(SocketChannel channel) throws IOException {
        this.channel = channel;
        channel.configureBlocking(false);
        selector = Selector.open();
        key = channel.register(selector, SelectionKey.OP_READ);
    }

    @Override
    public boolean isQuiet() {
        try {
            return readNow(ByteBuffer.allocate(1)) == 0;
        } catch (IOException e) {
            return false;
        }
    }

    /** Reads what has come, and waits for nothing; answers -1 at the end. */
    int readNow(ByteBuffer buffer) throws IOException {
        return channel.read(buffer);
    }

    @Override
    public int read(ByteBuffer buffer) throws IOException {
        boolean isInterrupted = false;
        try {
            for (;;) {
                int read = channel.read(buffer);
                if (read != 0 || !buffer.hasRemaining()) {
                    return read;
                }
                isInterrupted |= select(SelectionKey.OP_READ);
            }
        } finally {
            if (isInterrupted) {
                Thread.currentThread().interrupt();
            }
        }
    }

    @Override
    public void write(ByteBuffer bytes) throws IOException {
        boolean isInterrupted = false;
        try {
            while (bytes.hasRemaining()) {
                if (channel.write(bytes) == 0) {
                    isInterrupted |= select(SelectionKey.OP_WRITE);
                }
            }
        } finally {
            if (isInterrupted) {
                Thread.currentThread().interrupt();
            }
        }
    }

    @Override
    public void await(Deadline until) throws IOException {
        key.interestOps(SelectionKey.OP_READ);
        while (selector.selectNow() == 0) {
            long left = until.left();
            if (left <= 0) {
                throw new Unanswered(until);
            } else if (Thread.currentThread().isInterrupted()) {
                throw new InterruptedIOException("interrupted");
            }
            selector.select(left);
            selector.selectedKeys().clear();
        }
        selector.selectedKeys().clear();
    }

    @Override
    public void close() {
        try {
            selector.close();
            channel.close();
        } catch (IOException e) {
            System.getLogger("karzhoul").log(System.Logger.Level.DEBUG, "a socket can't be closed", e);
        }
    }

    /** Waits for one of these; answers whether the thread was interrupted meanwhile. */
    private boolean select(int operation) throws IOException {
        key.interestOps(operation);
        selector.select();
        selector.selectedKeys().clear();
        return Thread.interrupted();
    }
}
