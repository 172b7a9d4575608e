package karzhoul.jpa.engine;

import java.io.IOException;

/** Who was connected to hasn't said what was waited for, within the time for that: it may be slow, or none of ours. */
final class Unanswered extends IOException {
    private static final long serialVersionUID = 1;

    Unanswered(Deadline until) {
        super("nothing came within " + until);
    }
}
