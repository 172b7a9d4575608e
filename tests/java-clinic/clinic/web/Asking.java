package clinic.web;

import java.io.IOException;
import java.net.URI;
import java.net.URLEncoder;
import java.net.http.HttpClient;
import java.net.http.HttpRequest;
import java.net.http.HttpRequest.BodyPublishers;
import java.net.http.HttpResponse;
import java.net.http.HttpResponse.BodyHandlers;
import java.nio.charset.StandardCharsets;
import java.time.Duration;
import java.util.LinkedHashMap;
import java.util.List;
import java.util.Map;

/** A browser, or another program, of one user who is signed in. */
public final class Asking {
    private static final HttpClient CLIENT = HttpClient.newHttpClient();
    private final String top;
    private String cookie = "";

    public Asking(int port) {
        top = "http://localhost:" + port;
    }

    /** What was answered. */
    public record Answer(int status, HttpResponse<byte[]> response) {
        public String text() {
            return new String(response.body(), StandardCharsets.UTF_8);
        }

        public String header(String name) {
            return response.headers().firstValue(name).orElse("");
        }

        public Map<?, ?> object() {
            return (Map<?, ?>) JsonReader.read(text());
        }

        public List<?> list() {
            return (List<?>) JsonReader.read(text());
        }

        public long id() {
            return Long.parseLong(object().get("id").toString());
        }
    }

    /** Signs in, and keeps the cookie. */
    public Asking as(String login, String password) throws IOException, InterruptedException {
        var answer = json("POST", "/api/login", Map.of("login", login, "password", password));
        if (answer.status != 200) {
            throw new AssertionError(answer.text());
        }
        cookie = answer.header("Set-Cookie").split(";")[0];
        return this;
    }

    public Answer get(String path) throws IOException, InterruptedException {
        return send("GET", path, "", new byte[0]);
    }

    /** Sends a form, as a browser does; what it is led to isn't followed. */
    public Answer form(String path, Map<String, ?> fields) throws IOException, InterruptedException {
        var pairs = fields.entrySet().stream().map(each -> encoded(each.getKey()) + "=" + encoded(each.getValue().toString()));
        return send("POST", path, "application/x-www-form-urlencoded",
                String.join("&", pairs.toList()).getBytes(StandardCharsets.UTF_8));
    }

    public Answer json(String method, String path, Object value) throws IOException, InterruptedException {
        return send(method, path, "application/json", Json.of(value).getBytes(StandardCharsets.UTF_8));
    }

    public Answer send(String method, String path, String type, byte[] body) throws IOException, InterruptedException {
        var request = HttpRequest.newBuilder(URI.create(top + path)).timeout(Duration.ofMinutes(2))
                .method(method, body.length == 0 ? BodyPublishers.noBody() : BodyPublishers.ofByteArray(body));
        if (!type.isEmpty()) {
            request.header("Content-Type", type);
        }
        if (!cookie.isEmpty()) {
            request.header("Cookie", cookie);
        }
        var response = CLIENT.send(request.build(), BodyHandlers.ofByteArray());
        return new Answer(response.statusCode(), response);
    }

    /** The keys of the rows of a list or a page, by what they are called; of those called alike, the last one's. */
    public Map<String, Long> keys(String path, String name) throws IOException, InterruptedException {
        var answer = JsonReader.read(get(path).text());
        var keys = new LinkedHashMap<String, Long>();
        for (var each : answer instanceof Map<?, ?> page ? (List<?>) page.get("rows") : (List<?>) answer) {
            var row = (Map<?, ?>) each;
            keys.put(row.get(name).toString(), Long.valueOf(row.get("id").toString()));
        }
        return keys;
    }

    public static String encoded(String text) {
        return URLEncoder.encode(text, StandardCharsets.UTF_8);
    }
}
