package karzhoul.jpa.engine;

import java.io.IOException;
import java.io.InputStream;
import java.io.OutputStream;
import java.nio.ByteBuffer;

/** A pipe as two streams, for those who read and write bytes. */
final class PipeStreams {
    private PipeStreams() {}

    static InputStream in(Pipe pipe) {
        return new In(pipe);
    }

    static OutputStream out(Pipe pipe) {
        return new Out(pipe);
    }

    private static final class In extends InputStream {
        private final Pipe pipe;

        In(Pipe pipe) {
            this.pipe = pipe;
        }

        @Override
        public int read() throws IOException {
            byte[] one = new byte[1];
            return read(one, 0, 1) < 0 ? -1 : one[0] & 255;
        }

        @Override
        public int read(byte[] bytes, int from, int count) throws IOException {
            return count == 0 ? 0 : pipe.read(ByteBuffer.wrap(bytes, from, count));
        }
    }

    private static final class Out extends OutputStream {
        private final Pipe pipe;

        Out(Pipe pipe) {
            this.pipe = pipe;
        }

        @Override
        public void write(int one) throws IOException {
            write(new byte[] {(byte) one}, 0, 1);
        }

        @Override
        public void write(byte[] bytes, int from, int count) throws IOException {
            pipe.write(ByteBuffer.wrap(bytes, from, count));
        }
    }
}
