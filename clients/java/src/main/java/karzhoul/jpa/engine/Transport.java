package karzhoul.jpa.engine;

import java.io.IOException;
import java.io.InputStream;
import java.io.OutputStream;

/** What leads to a program and back: the pipes of a process, or a connection to a server. */
interface Transport {
    OutputStream out();

    InputStream in();

    /** Whether it leads there still, as far as is known; asked while no reply is waited for. */
    boolean isOpen();

    /** The process at its other end; 0 where that isn't known. */
    long pid();

    /** What has ended, once it has, and what follows. */
    ProgramEnded ended(IOException cause, boolean isAsked);

    /** Lets the program end, or the connection, once all is answered. */
    void close() throws IOException;

    /** Ends it now. */
    void destroy();
}
