package karzhoul.jpa.engine;

import java.io.IOException;
import java.util.List;

/** Starts the program. */
final class ProgramProcess {
    private ProgramProcess() {}

    /**
     * Starts it, as {@link ProcessBuilder} does. The JDK's thread that waits for its end gets the class loader of the
     * thread that starts it, and stays for a minute or for the next process: so that is the system's, and not one of an
     * application that a container may take away.
     *
     * @throws IOException where it can't be started
     */
    static Process start(List<String> command, ProcessBuilder.Redirect errors) throws IOException {
        Thread thread = Thread.currentThread();
        ClassLoader own = thread.getContextClassLoader();
        thread.setContextClassLoader(ClassLoader.getSystemClassLoader());
        try {
            return new ProcessBuilder(command).redirectError(errors).start();
        } finally {
            thread.setContextClassLoader(own);
        }
    }
}
