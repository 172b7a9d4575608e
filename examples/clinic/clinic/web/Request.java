package clinic.web;

import clinic.common.Refusal;
import clinic.users.Role;
import clinic.users.UserRow;
import java.util.Map;

/** A request: the parts of its path that a route names, its query, what it brings, and who sends it. */
public record Request(String path, Map<String, String> parts, Map<String, Object> query, Body body, UserRow user) {
    /** @throws Refusal where this part of the path is no number */
    public long id() {
        try {
            return Long.parseLong(parts.get("id"));
        } catch (NumberFormatException failed) {
            throw new Refusal(404, "there is no " + path);
        }
    }

    /** A parameter of the query, or this one where it is left out. */
    public String asked(String name, String otherwise) {
        return query.get(name) instanceof String text && !text.isEmpty() ? text : otherwise;
    }

    /** The query as a record. */
    public <R extends Record> R asked(Class<R> type) {
        return Fields.as(type, query);
    }

    /** What the request brings, as a record. */
    public <R extends Record> R form(Class<R> type) {
        return Fields.as(type, body.fields());
    }

    /** @throws Refusal where the user isn't one */
    public void byAdministrator() {
        if (user.role() != Role.ADMINISTRATOR) {
            throw new Refusal(403, "this is for administrators");
        }
    }

    /** Whether a path is one of the API, whose answers are JSON. */
    static boolean isOfProgram(String path) {
        return path.startsWith("/api/");
    }
}
