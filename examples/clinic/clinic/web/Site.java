package clinic.web;

import clinic.common.Conflict;
import clinic.common.Refusal;
import clinic.common.Store;
import clinic.users.Credentials;
import clinic.users.Users;
import com.sun.net.httpserver.HttpExchange;
import com.sun.net.httpserver.HttpHandler;
import jakarta.persistence.PersistenceException;
import jakarta.persistence.RollbackException;
import java.io.IOException;
import java.util.List;
import java.util.Map;
import java.util.Optional;
import java.util.logging.Level;
import java.util.logging.Logger;

/** Serves pages and the API: knows who asks, finds what is to be done, and tells what was refused. */
public final class Site implements HttpHandler {
    private static final Logger LOG = Logger.getLogger(Site.class.getName());
    private static final int LARGEST = 2_500_000;
    private static final Html SIGN_IN = new Html("""
            <form method="post" action="/login"><label>Login <input name="login" autofocus></label>
            <label>Password <input name="password" type="password"></label><button>Sign in</button></form>""");
    private final Store store;
    private final Router router;
    private final Sessions sessions = new Sessions();

    public Site(Store store, Router router) {
        this.store = store;
        this.router = router;
    }

    @Override
    public void handle(HttpExchange exchange) throws IOException {
        try (exchange) {
            var response = answer(exchange);
            response.headers().forEach(exchange.getResponseHeaders()::set);
            var length = response.body().length;
            exchange.sendResponseHeaders(response.status(), length == 0 ? -1 : length);
            if (length > 0) {
                exchange.getResponseBody().write(response.body());
            }
        }
    }

    private Response answer(HttpExchange exchange) throws IOException {
        var path = exchange.getRequestURI().getPath();
        try {
            return served(exchange, path);
        } catch (Refusal refused) {
            return told(path, refused);
        } catch (PersistenceException failed) {
            LOG.log(Level.WARNING, path, failed);
            return told(path, refusal(failed));
        } catch (RuntimeException failed) {
            LOG.log(Level.SEVERE, path, failed);
            return told(path, new Refusal(500, "something is wrong with the clinic's program"));
        }
    }

    private static Refusal refusal(PersistenceException failed) {
        if (Store.isStale(failed)) {
            return new Refusal(409, "somebody else has changed it meanwhile: look, and do it again");
        }
        return new Refusal(503, failed instanceof RollbackException ? "this wasn't saved: do it again"
                : "it isn't known whether this was saved: look before you do it again");
    }

    private Response served(HttpExchange exchange, String path) throws IOException {
        var body = exchange.getRequestBody().readNBytes(LARGEST + 1);
        if (body.length > LARGEST) {
            throw new Refusal(413, "that is larger than " + LARGEST + " bytes");
        }
        var type = Optional.ofNullable(exchange.getRequestHeaders().getFirst("Content-Type")).orElse("");
        var query = Optional.ofNullable(exchange.getRequestURI().getRawQuery()).orElse("");
        var token = token(exchange);
        var user = token.flatMap(sessions::user);
        var request = new Request(path, Map.of(), Body.form(query), new Body(type, body), user.orElse(null));
        switch (exchange.getRequestMethod() + " " + path) {
            case "POST /login", "POST /api/login":
                return signIn(request);
            case "POST /logout", "POST /api/logout":
                token.ifPresent(sessions::end);
                return Request.isOfProgram(path) ? Response.nothing() : Response.seeOther("/");
            default:
        }
        if (user.isEmpty()) {
            return Request.isOfProgram(path) ? Response.json(401, Map.of("error", "sign in by POST /api/login"))
                    : Response.page(401, "Sign in", Html.NOTHING, SIGN_IN);
        }
        var match = router.route(exchange.getRequestMethod(), path);
        return match.work().apply(new Request(path, match.parts(), request.query(), request.body(), request.user()));
    }

    private Response signIn(Request request) {
        var path = request.path();
        var credentials = request.form(Credentials.class);
        var user = store.within(manager -> new Users(manager).of(credentials));
        var response = Request.isOfProgram(path) ? Response.json(200, user) : Response.seeOther("/");
        return response.with("Set-Cookie",
                Sessions.COOKIE + "=" + sessions.begin(user) + "; Path=/; HttpOnly; SameSite=Strict");
    }

    private static Optional<String> token(HttpExchange exchange) {
        for (var cookies : exchange.getRequestHeaders().getOrDefault("Cookie", List.of())) {
            for (var cookie : cookies.split("; *")) {
                if (cookie.startsWith(Sessions.COOKIE + "=")) {
                    return Optional.of(cookie.substring(Sessions.COOKIE.length() + 1).replace("\"", ""));
                }
            }
        }
        return Optional.empty();
    }

    private static Response told(String path, Refusal refused) {
        if (Request.isOfProgram(path)) {
            return Response.json(refused.status(), refused.told());
        }
        var words = Html.of("<p class=\"refused\">{}</p>", refused.getMessage());
        var choice = refused instanceof Conflict conflict ? choice(path, conflict) : Html.NOTHING;
        return Response.refused(refused.status(), Html.of("{}{}", words, choice));
    }

    /** Both versions beside each other, and a button for each of them. */
    private static Html choice(String path, Conflict conflict) {
        var theirs = Json.components(conflict.theirs());
        var yours = Json.components(conflict.yours());
        yours.put("version", theirs.get("version"));
        var rows = Html.each(yours.keySet(), name -> name.equals("version") ? Html.NOTHING
                : Html.of("<tr><th>{}</th><td>{}</td><td>{}</td></tr>", name, yours.get(name), theirs.get(name)));
        var inputs = Html.each(yours.entrySet(),
                each -> Html.of("<input type=\"hidden\" name=\"{}\" value=\"{}\">", each.getKey(), each.getValue()));
        return Html.of("""
                <table><tr><th></th><th>Yours</th><th>Saved meanwhile</th></tr>{}</table>
                <form method="post" action="{}">{}<button>Save yours</button></form>
                <form method="get" action="{}"><button>Keep what was saved</button></form>""", rows, path, inputs, path);
    }
}
