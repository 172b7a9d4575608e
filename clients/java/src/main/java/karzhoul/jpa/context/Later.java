package karzhoul.jpa.context;

/** What the door doesn't have, in words that say what there is instead. */
final class Later {
    private Later() {}

    /** There is no SQL at all. */
    static UnsupportedOperationException sql() {
        return new UnsupportedOperationException("the store has no SQL: there are no native queries and no stored"
            + " procedures; write the query in JPQL");
    }
}
