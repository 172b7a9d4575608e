package clinic.web;

import clinic.users.UserRow;
import java.security.SecureRandom;
import java.time.Duration;
import java.time.Instant;
import java.util.Base64;
import java.util.Map;
import java.util.Optional;
import java.util.concurrent.ConcurrentHashMap;

/** Who is signed in, by the token of a cookie. They are in memory: who starts the clinic anew signs in anew. */
final class Sessions {
    static final String COOKIE = "session";
    private static final Duration LONGEST = Duration.ofHours(10);
    private final SecureRandom random = new SecureRandom();
    private final Map<String, Session> sessions = new ConcurrentHashMap<>();

    private record Session(UserRow user, Instant end) {}

    /** Begins one, and answers its token. */
    String begin(UserRow user) {
        var now = Instant.now();
        sessions.values().removeIf(each -> each.end.isBefore(now));
        var bytes = new byte[24];
        random.nextBytes(bytes);
        var token = Base64.getUrlEncoder().withoutPadding().encodeToString(bytes);
        sessions.put(token, new Session(user, now.plus(LONGEST)));
        return token;
    }

    Optional<UserRow> user(String token) {
        return Optional.ofNullable(sessions.get(token)).filter(each -> each.end.isAfter(Instant.now())).map(Session::user);
    }

    void end(String token) {
        sessions.remove(token);
    }
}
