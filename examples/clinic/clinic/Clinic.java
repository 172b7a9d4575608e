package clinic;

import clinic.billing.InvoicePages;
import clinic.calendar.AppointmentPages;
import clinic.common.Store;
import clinic.documents.DocumentPages;
import clinic.people.DoctorPages;
import clinic.people.PatientPages;
import clinic.users.UserPages;
import clinic.web.Router;
import clinic.web.Site;
import com.sun.net.httpserver.HttpServer;
import java.io.IOException;
import java.net.InetAddress;
import java.net.InetSocketAddress;
import java.util.concurrent.ExecutorService;
import java.util.concurrent.Executors;

/** The clinic, as it is served: a store, and an HTTP server over it with a pool of threads. */
public final class Clinic implements AutoCloseable {
    private static final int THREADS = 16;
    private final Store store;
    private final HttpServer server;
    private final ExecutorService threads = Executors.newFixedThreadPool(THREADS);

    /**
     * Opens the store of a url, and serves it to this machine on a port; 0 is any that is free. A store that is new
     * gets samples, and users with this password.
     */
    public Clinic(String url, int port, String password) throws IOException {
        store = Store.open(url);
        Samples.fill(store, password);
        var router = new Router();
        new AppointmentPages(store).add(router);
        new PatientPages(store).add(router);
        new DoctorPages(store).add(router);
        new DocumentPages(store).add(router);
        new InvoicePages(store).add(router);
        new UserPages(store).add(router);
        server = HttpServer.create(new InetSocketAddress(InetAddress.getLoopbackAddress(), port), 0);
        server.createContext("/", new Site(store, router));
        server.setExecutor(threads);
        server.start();
    }

    public int port() {
        return server.getAddress().getPort();
    }

    /** Ends the server, once what it does is done, and then the store. */
    @Override
    public void close() {
        server.stop(1);
        threads.shutdown();
        store.close();
    }
}
