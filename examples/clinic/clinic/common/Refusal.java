package clinic.common;

import java.util.Map;

/** What the clinic doesn't do, in words for the person who asked, with a status of HTTP. */
public class Refusal extends RuntimeException {
    private static final long serialVersionUID = 1L;
    private final int status;

    public Refusal(int status, String words) {
        super(words);
        this.status = status;
    }

    /** There is none of this key. */
    public static Refusal missing(Class<?> type, Object key) {
        return new Refusal(404, "there is no " + type.getSimpleName().toLowerCase() + " " + key);
    }

    /** It can't be done as things stand. */
    public static Refusal conflict(String words) {
        return new Refusal(409, words);
    }

    public int status() {
        return status;
    }

    /** What an answer in JSON tells. */
    public Map<String, Object> told() {
        return Map.of("error", getMessage());
    }
}
