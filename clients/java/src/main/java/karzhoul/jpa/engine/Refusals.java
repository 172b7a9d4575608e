package karzhoul.jpa.engine;

import jakarta.persistence.EntityExistsException;
import jakarta.persistence.EntityNotFoundException;
import jakarta.persistence.NoResultException;
import jakarta.persistence.NonUniqueResultException;
import jakarta.persistence.OptimisticLockException;
import jakarta.persistence.PersistenceException;
import jakarta.persistence.RollbackException;
import jakarta.persistence.TransactionRequiredException;
import java.util.Map;
import java.util.Set;
import karzhoul.jpa.ServerEndingException;

/** The program's refusals as the standard's exceptions: its words first, then a sentence. */
public final class Refusals {
    /** Refusals that leave the transaction as it was. */
    private static final Set<String> UNMARKING =
        Set.of("NoResult", "NonUniqueResult", "OutOfMemory", "StoreFault", "TransactionRequired", "BadLine");

    private static final Map<String, String> SENTENCES = Map.ofEntries(
        Map.entry("EntityExists", "an object of this identity is managed or stored already, or the object is"
            + " detached: merge it, or take another key"),
        Map.entry("EntityNotFound", "there is no row of this identity"),
        Map.entry("OptimisticLock", "another commit changed or removed the row meanwhile; find it again, apply the"
            + " change, commit"),
        Map.entry("TransactionRequired", "no transaction is active: begin one"),
        Map.entry("NoResult", "the query found nothing"),
        Map.entry("NonUniqueResult", "the query found more than one row"),
        Map.entry("Overflow", "a whole number left 64 bits"),
        Map.entry("OutOfMemory", "the program had no memory for the call, and did nothing"),
        Map.entry("StoreFault", "the store's file could not be written; has its disk room?"),
        Map.entry("Limit", "a text or bytes over 65,535 bytes, a line over 1,048,576, a query over 16,384, lists of"
            + " more than 65,536 values together in a query, or more objects than the program makes in a run"),
        Map.entry("Closed", "what has begun may end within its time; begin again at the server that comes next"),
        Map.entry("Rollback", "the transaction was rolled back"),
        Map.entry("Rollback(marked)", "the transaction could only roll back, since a call was refused or"
            + " setRollbackOnly asked for it"),
        Map.entry("IllegalArgument(type)", "a value of another type, or an entity of another class"),
        Map.entry("IllegalArgument(key)", "the key isn't whole, or was changed"),
        Map.entry("IllegalArgument(version)", "the version was changed"),
        Map.entry("IllegalArgument(state)", "the entity isn't managed, or it was removed"),
        Map.entry("IllegalArgument(syntax)", "the text can't be read as a query"),
        Map.entry("IllegalArgument(typing)", "the query is ill typed"),
        Map.entry("IllegalArgument(parameter)", "a parameter is missing, too much, or has no whole key"),
        Map.entry("IllegalArgument(range)", "a position or a maximum below zero"),
        Map.entry("IllegalState(active)", "the transaction is active already"),
        Map.entry("IllegalState(inactive)", "no transaction is active"),
        Map.entry("IllegalState(unfetched)", "the relation wasn't read before the entity was detached"),
        Map.entry("IllegalState(reference)", "a relation that doesn't cascade PERSIST or MERGE leads to an entity"
            + " that is new or removed: persist it first, or let it cascade"),
        Map.entry("IllegalState(statement)", "an UPDATE or DELETE is executed, a SELECT is asked"),
        Map.entry("Persistence(key)", "part of the key is null, or a generated key was set"),
        Map.entry("Persistence(generator)", "no number is left for a key"),
        Map.entry("Persistence(version)", "the entity has no version, which @Version on a number gives it, or it can't rise"),
        Map.entry("Persistence(null)", "a required attribute or relation is null: set it, or declare that it may be"),
        Map.entry("Persistence(reference)", "a stored relation would lead to an entity that isn't stored"),
        Map.entry("Persistence(unique)", "two entities would have one and the same one-to-one target: take it from one"
            + " of them, or map it as many-to-one"),
        Map.entry("Persistence(converter)", "a converter refused a value"));

    private Refusals() {}

    /** Whether this refusal leaves the open transaction able only to roll back. */
    public static boolean marks(Reply refused) {
        return !UNMARKING.contains(refused.error()) && !refused.error().startsWith("NoSuch");
    }

    /** The program's words of a refusal, as {@code Persistence(null)}. */
    public static String words(Reply refused) {
        return refused.why() == null ? refused.error() : refused.error() + "(" + refused.why() + ")";
    }

    /** The exception of a refused reply. */
    public static RuntimeException of(Reply refused) {
        return of(words(refused), refused.about());
    }

    /** The exception of these words of the program's, about this. */
    public static RuntimeException of(String words, Object about) {
        int open = words.indexOf('(');
        String name = open < 0 ? words : words.substring(0, open);
        String message = message(words, name, about);
        switch (name) {
            case "EntityExists":
                return new EntityExistsException(message);
            case "EntityNotFound":
                return new EntityNotFoundException(message);
            case "OptimisticLock":
                return new OptimisticLockException(message);
            case "TransactionRequired":
                return new TransactionRequiredException(message);
            case "IllegalArgument":
                return new IllegalArgumentException(message);
            case "IllegalState":
                return new IllegalStateException(message);
            case "NoResult":
                return new NoResultException(message);
            case "NonUniqueResult":
                return new NonUniqueResultException(message);
            case "StoreFault":
                return new StoreFault(message);
            case "Closed":
                return new ServerEndingException(message);
            case "Rollback":
                return rollback(words.substring(open + 1, words.length() - 1), message, about);
            default:
                return new PersistenceException(message);
        }
    }

    private static RuntimeException rollback(String cause, String message, Object about) {
        return cause.equals("marked") ? new RollbackException(message) : rolledBack(of(cause, about));
    }

    /** The exception of a commit that was rolled back for this cause. */
    public static RollbackException rolledBack(Throwable cause) {
        return new RollbackException("the transaction was rolled back: " + words(cause), cause);
    }

    /** The exception of a commit of a transaction that this marked before, or setRollbackOnly, which is null. */
    public static RollbackException marked(Throwable cause) {
        return cause == null ? new RollbackException("the transaction was rolled back: setRollbackOnly asked for it")
            : rolledBack(cause);
    }

    private static String words(Throwable cause) {
        return cause.getMessage() == null ? cause.getClass().getName() : cause.getMessage();
    }

    private static String message(String words, String name, Object about) {
        String sentence = SENTENCES.getOrDefault(words, SENTENCES.get(name));
        return words + (about == null ? "" : ", " + about) + (sentence == null ? "" : ": " + sentence);
    }
}
