package clinic.calendar;

import java.time.LocalDateTime;

/** An appointment as it is shown. */
public record AppointmentRow(long id, LocalDateTime starts, long doctorId, String doctor, long patientId,
        String patient, String reason, AppointmentState state) {}
