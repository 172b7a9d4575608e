package desk.common;

/** What the desk doesn't do, in words for its clerk. */
public class DeskException extends RuntimeException {
    private static final long serialVersionUID = 1L;

    public DeskException(String words) {
        super(words);
    }

    public DeskException(String words, Throwable cause) {
        super(words, cause);
    }
}
