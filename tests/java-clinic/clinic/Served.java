package clinic;

import clinic.web.Asking;
import java.io.IOException;
import java.nio.file.Path;

/** A clinic over a store of its own: that of a folder, or of the url that the property {@code clinic.url} gives. */
final class Served implements AutoCloseable {
    static final String PASSWORD = "a word for tests";
    private final Clinic clinic;

    Served(Path folder) throws IOException {
        clinic = new Clinic(url(folder), 0, PASSWORD);
    }

    static String url(Path folder) {
        return System.getProperty("clinic.url", "karzhoul:FOLDER/clinic.db").replace("FOLDER", folder.toString());
    }

    /** Somebody who isn't signed in. */
    Asking anybody() {
        return new Asking(clinic.port());
    }

    Asking as(String login) throws IOException, InterruptedException {
        return anybody().as(login, PASSWORD);
    }

    @Override
    public void close() {
        clinic.close();
    }
}
