package desk.imports;

import java.util.function.IntConsumer;

/** How far an import is, in one line of a terminal. Elsewhere nothing is told. */
public final class Progress implements IntConsumer, AutoCloseable {
    private final int total;
    private final boolean isShown = System.console() != null;
    private final long start = System.nanoTime();

    public Progress(int total) {
        this.total = total;
    }

    @Override
    public void accept(int done) {
        if (isShown) {
            var seconds = Math.max((System.nanoTime() - start) / 1e9, 0.001);
            var left = Math.round((total - done) * seconds / done);
            System.err.printf(
                    "\r%,d of %,d rows, %,.0f a second, %d:%02d left   ",
                    done, total, done / seconds, left / 60, left % 60);
        }
    }

    @Override
    public void close() {
        if (isShown) {
            System.err.println();
        }
    }
}
