package karzhoul.jpa.query;

import java.util.function.Supplier;

/** A parameter that has no equal among the decimals beside it, as the program computes with them. */
final class Inexact extends IllegalArgumentException {
    private static final long serialVersionUID = 1L;

    Inexact(String reason, Throwable cause) {
        super(reason, cause);
    }

    /** Another plan, where the door computes with parameters; made when it is asked for first, for all threads. */
    static final class Instead<P> {
        private final Supplier<P> planned;
        private P plan;

        Instead(Supplier<P> planned) {
            this.planned = planned;
        }

        /** The plan; the refusal is raised where the door can't compute there. */
        synchronized P of(Inexact refusal) {
            try {
                plan = plan == null ? planned.get() : plan;
                return plan;
            } catch (NotKept | QueryFault e) {
                throw refusal;
            }
        }
    }
}
