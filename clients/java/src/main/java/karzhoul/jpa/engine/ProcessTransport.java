package karzhoul.jpa.engine;

import jakarta.persistence.PersistenceException;
import java.io.IOException;
import java.io.InputStream;
import java.io.OutputStream;
import java.nio.charset.StandardCharsets;
import java.util.List;
import java.util.concurrent.TimeUnit;

/** A program of this JVM's own, behind its two pipes. It ends with its input, so also with a JVM that is killed. */
final class ProcessTransport implements Transport {
    private static final long PATIENCE = 10;

    private final Process process;
    /** How it ended, for all who find it so; null until somebody has. */
    private String status;

    /**
     * Starts the program.
     *
     * @throws PersistenceException where it can't be started
     */
    ProcessTransport(List<String> command) {
        try {
            process = ProgramProcess.start(command, ProcessBuilder.Redirect.PIPE);
        } catch (IOException e) {
            throw new PersistenceException("the program " + command.get(0) + " can't be started: " + e.getMessage(), e);
        }
    }

    @Override
    public OutputStream out() {
        return process.getOutputStream();
    }

    @Override
    public InputStream in() {
        return process.getInputStream();
    }

    @Override
    public boolean isOpen() {
        return process.isAlive();
    }

    @Override
    public long pid() {
        return process.pid();
    }

    @Override
    public ProgramEnded ended(IOException cause, boolean isAsked) {
        return new ProgramEnded("the program has ended", status(cause), "the next entity manager starts it again", isAsked, cause);
    }

    private synchronized String status(IOException cause) {
        try {
            if (status == null && process.waitFor(PATIENCE, TimeUnit.SECONDS)) {
                byte[] words = process.getErrorStream().readNBytes(4096);
                String said = new String(words, StandardCharsets.UTF_8).strip();
                status = " (status " + process.exitValue() + (said.isEmpty() ? "" : ": " + said) + ")";
            }
        } catch (InterruptedException e) {
            Thread.currentThread().interrupt();
        } catch (IOException e) {
            cause.addSuppressed(e);
        }
        return status == null ? "" : status;
    }

    @Override
    public void close() throws IOException {
        process.getOutputStream().close();
        try {
            if (!process.waitFor(PATIENCE, TimeUnit.SECONDS)) {
                process.destroy();
            }
        } catch (InterruptedException e) {
            process.destroy();
            Thread.currentThread().interrupt();
        }
    }

    /** (that of the process itself would close what the program's last words are read from) */
    @Override
    public void destroy() {
        process.toHandle().destroy();
    }
}
