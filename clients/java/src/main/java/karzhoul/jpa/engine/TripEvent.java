package karzhoul.jpa.engine;

import java.nio.charset.StandardCharsets;
import java.util.Arrays;
import jdk.jfr.Category;
import jdk.jfr.Description;
import jdk.jfr.Event;
import jdk.jfr.Label;
import jdk.jfr.Name;

/** Calls that were written to the program together, until all were answered. */
@Name("karzhoul.Trip")
@Label("Trip to the Program")
@Category("Karzhoul")
@Description("Calls that were written to the program together, until all were answered")
final class TripEvent extends Event {
    private static final int LONGEST = 200;

    @Label("Calls")
    int calls;

    @Label("Refusals")
    int refusals;

    @Label("Bytes Written")
    int bytes;

    @Label("First Call")
    String first;

    /** One that begins now, as an Object: so a JVM without a recorder loads no class of it. */
    static Object begun() {
        TripEvent event = new TripEvent();
        event.begin();
        return event;
    }

    static void ended(Object begun, Lines lines, Reply[] told) {
        TripEvent event = (TripEvent) begun;
        event.end();
        if (event.shouldCommit() && told.length > 0) {
            event.calls = told.length;
            event.refusals = (int) Arrays.stream(told).filter(Reply::isRefused).count();
            event.bytes = lines.length();
            event.first = new String(lines.bytes(), 0, Math.min(LONGEST, lines.end(0) - 1), StandardCharsets.UTF_8);
            event.commit();
        }
    }
}
