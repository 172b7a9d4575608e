package karzhoul.jpa.engine;

import jdk.jfr.FlightRecorder;

/** Whether the JVM records events, which a JVM of few modules can't. */
final class Recording {
    private static final boolean IS_THERE = ModuleLayer.boot().findModule("jdk.jfr").isPresent();

    private Recording() {}

    static boolean isOn() {
        return IS_THERE && FlightRecorder.isInitialized();
    }
}
