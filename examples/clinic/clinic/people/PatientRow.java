package clinic.people;

import java.time.LocalDate;

/** A patient in a list. */
public record PatientRow(long id, String name, LocalDate born) {}
