package clinic.calendar;

import clinic.common.Checks;
import java.time.LocalDateTime;

/** An appointment that somebody wants. */
public record AppointmentForm(Long doctor, Long patient, LocalDateTime starts, String reason) {
    /** @throws clinic.common.Invalid where a field has a fault */
    public AppointmentForm checked() {
        new Checks().given("doctor", doctor)
                .given("patient", patient)
                .given("starts", starts)
                .that(starts == null || starts.equals(quarter(starts)), "starts", "is no quarter of an hour")
                .shorter("reason", reason, 500)
                .done();
        return this;
    }

    private static LocalDateTime quarter(LocalDateTime time) {
        return time.withMinute(time.getMinute() / 15 * 15).withSecond(0).withNano(0);
    }
}
