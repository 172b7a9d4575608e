package clinic.web;

import java.net.URLEncoder;
import java.nio.charset.StandardCharsets;
import java.util.HashMap;
import java.util.Map;

/** What is answered. */
public record Response(int status, Map<String, String> headers, byte[] body) {
    private static final String PAGE = """
            <!DOCTYPE html><html lang="en"><head><meta charset="utf-8"><title>{}</title><style>
            body { font-family: sans-serif; max-width: 60em; margin: 1em auto }
            td, th { text-align: left; padding: .2em 1em .2em 0 }
            label { display: block; margin: .4em 0 }
            form.inline { display: inline }
            .refused { color: #a00 }
            nav a { margin-right: 1em }
            </style></head><body><nav>{}</nav><h1>{}</h1>
            {}
            </body></html>
            """;
    private static final Html WAYS = new Html("""
            <a href="/">Today</a><a href="/patients">Patients</a><a href="/doctors">Doctors</a>
            <a href="/invoices">Invoices</a><a href="/reports/turnover">Turnover</a><a href="/users">Users</a>
            <form class="inline" method="post" action="/logout"><button>Sign out</button></form>""");

    /** A page with a title. */
    public static Response page(String title, Html content) {
        return page(200, title, WAYS, content);
    }

    static Response page(int status, String title, Html ways, Html content) {
        return text(status, "text/html; charset=utf-8", Html.of(PAGE, title, ways, title, content).text());
    }

    static Response refused(int status, Html content) {
        return page(status, "That wasn't done", WAYS, content);
    }

    /** A value as JSON. */
    public static Response json(int status, Object value) {
        return text(status, "application/json", Json.of(value));
    }

    /** Has the browser go on to another page. */
    public static Response seeOther(String path) {
        return new Response(303, Map.of("Location", path), new byte[0]);
    }

    public static Response nothing() {
        return new Response(204, Map.of(), new byte[0]);
    }

    /** A file to keep. */
    public static Response file(String name, String type, byte[] content) {
        var encoded = URLEncoder.encode(name, StandardCharsets.UTF_8).replace("+", "%20");
        return new Response(200, Map.of("Content-Type", type, "X-Content-Type-Options", "nosniff",
                "Content-Disposition", "attachment; filename*=UTF-8''" + encoded), content);
    }

    Response with(String name, String value) {
        var all = new HashMap<>(headers);
        all.put(name, value);
        return new Response(status, all, body);
    }

    private static Response text(int status, String type, String text) {
        return new Response(status, Map.of("Content-Type", type), text.getBytes(StandardCharsets.UTF_8));
    }
}
