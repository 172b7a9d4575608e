package karzhoul.jpa.query;

/** What the program's language can't say; the planner does it by itself, or refuses the statement. */
final class NotKept extends RuntimeException {
    private static final long serialVersionUID = 1L;

    final int at;

    NotKept(int at, String reason) {
        super(reason, null, false, false);
        this.at = at;
    }
}
