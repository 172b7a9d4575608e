package karzhoul.jpa.engine;

/** How long the calls of a trip take. */
final class Timing {
    private final Lines lines;
    private final long begin = System.nanoTime();
    private long last = begin;
    private long waited;
    private int longest;

    Timing(Lines lines) {
        this.lines = lines;
    }

    void answered(int place) {
        long now = System.nanoTime();
        if (now - last > waited) {
            waited = now - last;
            longest = place;
        }
        last = now;
    }

    void end(Journal journal) {
        if (lines.count() > 0) {
            journal.slow(lines, longest, waited, last - begin);
        }
    }
}
