package clinic.people;

/** A doctor in a list. */
public record DoctorRow(long id, String name, String department, int floor) {}
