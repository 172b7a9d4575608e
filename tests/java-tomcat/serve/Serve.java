package serve;

import java.io.IOException;
import java.net.URI;
import java.net.http.HttpClient;
import java.net.http.HttpRequest;
import java.net.http.HttpResponse;
import java.nio.file.Path;
import java.time.Duration;
import java.util.ArrayList;
import java.util.List;
import java.util.concurrent.ExecutorService;
import java.util.concurrent.Executors;
import java.util.concurrent.Future;
import java.util.concurrent.TimeUnit;
import org.apache.catalina.Context;
import org.apache.catalina.LifecycleException;
import org.apache.catalina.core.StandardHost;
import org.apache.catalina.startup.Tomcat;

/** {@code Serve FOLDER WAR}: Tomcat with an application, at a port of the system's; what it answers, a line each. */
public final class Serve {
    private static final int THREADS = 8;
    private static final int REQUESTS = 20;

    /** As many seconds end what hangs; nothing that goes on takes as long, also on a machine that has other work. */
    private static final int PATIENCE = 1800;

    private final Tomcat tomcat = new Tomcat();
    private final HttpClient client = HttpClient.newHttpClient();
    private final String war;
    private Context shop;

    private Serve(String folder, String war) throws LifecycleException {
        this.war = war;
        tomcat.setBaseDir(folder);
        tomcat.setPort(0);
        tomcat.getHost().setAppBase("webapps");
        Path.of(folder, "webapps").toFile().mkdirs();
        tomcat.setAddDefaultWebXmlToWebapp(false);
        tomcat.getConnector();
        tomcat.start();
    }

    public static void main(String[] words) throws Exception {
        Serve serve = new Serve(words[0], words[1]);
        serve.deploy();
        serve.addTogether("first");
        long first = program().pid();
        serve.shop.reload();
        System.out.println("reloaded: " + serve.get() + ", another program: " + (program().pid() != first));
        serve.addTogether("second");
        long second = program().pid();
        serve.undeploy();
        System.out.println("undeployed: " + programs() + " programs");
        serve.deploy();
        System.out.println("deployed again: " + serve.get() + ", another program: " + (program().pid() != second));
        serve.killProgram();
        serve.addTogether("third");
        serve.shop.reload();
        System.out.println("classes left by applications: " + serve.left());
        serve.tomcat.stop();
        System.out.println("stopped: " + programs() + " programs");
        serve.tomcat.destroy();
    }

    private void deploy() {
        shop = tomcat.addWebapp("/shop", war);
        System.out.println("deployed: " + shop.getState());
    }

    private void undeploy() throws LifecycleException {
        shop.stop();
        tomcat.getHost().removeChild(shop);
        shop.destroy();
    }

    /**
     * Those whose classes can't be forgotten, as Tomcat sees it; garbage may take some turns to be found. The threads
     * that served requests end before: where code that C1 compiled catches an exception, HotSpot 17 may keep it in the
     * thread, out of the heap, until the thread ends; and the exception is of the application's classes.
     */
    private List<String> left() throws InterruptedException, LifecycleException {
        tomcat.getConnector().stop();
        List<String> left = List.of("not looked yet");
        for (int turn = 0; turn < 50 && !left.isEmpty(); turn++) {
            Thread.sleep(turn * 50L);
            left = List.of(((StandardHost) tomcat.getHost()).findReloadedContextMemoryLeaks());
        }
        return left;
    }

    /** Who finds the program gone is refused, and the next one is served by another program. */
    private void killProgram() throws Exception {
        ProcessHandle killed = program();
        killed.destroyForcibly();
        killed.onExit().get(PATIENCE, TimeUnit.SECONDS);
        int refused = 0;
        while (client.send(request("").GET().build(), HttpResponse.BodyHandlers.ofString()).statusCode() != 200) {
            refused++;
        }
        System.out.println("killed: " + (refused <= 1 ? "at most one was refused" : refused + " were refused"));
    }

    /** Requests of several threads at once. */
    private void addTogether(String names) throws Exception {
        ExecutorService threads = Executors.newFixedThreadPool(THREADS);
        List<Future<?>> all = new ArrayList<>();
        for (int i = 0; i < THREADS; i++) {
            String name = names + i;
            all.add(threads.submit(() -> {
                for (int j = 0; j < REQUESTS; j++) {
                    send(request("?name=" + name).POST(HttpRequest.BodyPublishers.noBody()));
                }
                return null;
            }));
        }
        for (Future<?> one : all) {
            one.get(PATIENCE, TimeUnit.SECONDS);
        }
        threads.shutdown();
        System.out.println("added: " + get());
    }

    private String get() throws IOException, InterruptedException {
        return send(request("").GET());
    }

    private HttpRequest.Builder request(String query) {
        int port = tomcat.getConnector().getLocalPort();
        return HttpRequest.newBuilder(URI.create("http://localhost:" + port + "/shop/goods" + query))
                .timeout(Duration.ofSeconds(PATIENCE));
    }

    private String send(HttpRequest.Builder request) throws IOException, InterruptedException {
        HttpResponse<String> response = client.send(request.build(), HttpResponse.BodyHandlers.ofString());
        if (response.statusCode() != 200) {
            throw new IOException(response.statusCode() + ": " + response.body());
        }
        return response.body();
    }

    private static ProcessHandle program() {
        return ProcessHandle.current().children().filter(ProcessHandle::isAlive).reduce((one, other) -> {
            throw new IllegalStateException("there are two programs");
        }).orElseThrow();
    }

    /** How many programs there are, once those that end have ended. */
    private static long programs() throws Exception {
        for (ProcessHandle one : ProcessHandle.current().children().toList()) {
            one.onExit().get(PATIENCE, TimeUnit.SECONDS);
        }
        return ProcessHandle.current().children().count();
    }
}
