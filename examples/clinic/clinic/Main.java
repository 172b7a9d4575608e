package clinic;

import java.io.IOException;

/** The command line: {@code [--url URL] [--port PORT] [--password PASSWORD]}. */
public final class Main {
    private Main() {}

    public static void main(String[] arguments) throws IOException {
        var url = "karzhoul:clinic.db";
        var port = 8080;
        var password = "open sesame";
        for (var at = 0; at < arguments.length; at += 2) {
            var value = at + 1 < arguments.length ? arguments[at + 1] : "";
            switch (arguments[at]) {
                case "--url" -> url = value;
                case "--port" -> port = Integer.parseInt(value);
                case "--password" -> password = value;
                default -> {
                    System.err.println("clinic [--url karzhoul:FILE] [--port PORT] [--password PASSWORD]");
                    System.exit(2);
                }
            }
        }
        var clinic = new Clinic(url, port, password);
        Runtime.getRuntime().addShutdownHook(new Thread(clinic::close));
        System.out.println("http://localhost:" + clinic.port() + "/");
    }
}
