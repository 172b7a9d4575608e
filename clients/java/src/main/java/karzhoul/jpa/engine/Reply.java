package karzhoul.jpa.engine;

import java.util.List;

/**
 * What a call was answered.
 *
 * @param ok null, a Boolean, a Long, a String, a byte[], a {@link Ref}, a {@link Shown} or a list of these
 * @param error the refusal's name, or null where the call was done
 * @param why the refusal's detail, or null
 * @param events what came about, in its order
 * @param about what the line said it was about; null where nothing was told
 */
public record Reply(Object ok, String error, String why, List<Event> events, Object about) {
    public boolean isRefused() {
        return error != null;
    }

    /** Whether a server refused it, since its numbers are of before a new run. */
    boolean isOfBefore() {
        return ServerConnection.RESTARTED.equals(error);
    }

    /** The number of the object that was answered. */
    public long number() {
        return ((Ref) ok).number();
    }

    /** The list that was answered. */
    @SuppressWarnings("unchecked")
    public List<Object> list() {
        return (List<Object>) ok;
    }

    /** As a person reads it. */
    @Override
    public String toString() {
        if (!isRefused()) {
            return ok + (events.isEmpty() ? "" : ", with " + events);
        }
        return "refused: " + Refusals.words(this) + (about == null ? "" : ", " + about);
    }
}
