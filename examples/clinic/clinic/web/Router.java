package clinic.web;

import clinic.common.Refusal;
import java.util.ArrayList;
import java.util.HashMap;
import java.util.List;
import java.util.Map;
import java.util.Optional;
import java.util.function.Function;

/** Which work is done for which method and path. */
public final class Router {
    private final List<Route> routes = new ArrayList<>();

    /** Work for paths, as {@code /patients/{id}}, whose parts in braces the request has by their names. */
    public Router on(String method, String path, Function<Request, Response> work) {
        routes.add(new Route(method, path.split("/"), work));
        return this;
    }

    /** @throws Refusal where nothing is on this path, or not by this method */
    Match route(String method, String path) {
        var words = path.split("/");
        var isThere = false;
        for (var route : routes) {
            var parts = route.match(words);
            if (parts.isPresent() && route.method.equals(method)) {
                return new Match(parts.get(), route.work);
            }
            isThere |= parts.isPresent();
        }
        throw isThere ? new Refusal(405, method + " isn't served by " + path) : new Refusal(404, "there is no " + path);
    }

    /** The parts of a path by their names, and what is done for it. */
    record Match(Map<String, String> parts, Function<Request, Response> work) {}

    private record Route(String method, String[] path, Function<Request, Response> work) {
        Optional<Map<String, String>> match(String[] words) {
            var parts = new HashMap<String, String>();
            for (var at = 0; at < path.length; at++) {
                if (path.length != words.length) {
                    return Optional.empty();
                } else if (path[at].startsWith("{")) {
                    parts.put(path[at].substring(1, path[at].length() - 1), words[at]);
                } else if (!path[at].equals(words[at])) {
                    return Optional.empty();
                }
            }
            return path.length == words.length ? Optional.of(parts) : Optional.empty();
        }
    }
}
