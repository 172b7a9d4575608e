package clinic.calendar;

/** How far an appointment has come; one that is cancelled is deleted. */
public enum AppointmentState {
    PLANNED,
    BILLED
}
