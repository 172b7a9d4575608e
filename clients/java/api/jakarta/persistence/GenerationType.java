package jakarta.persistence;

/** As version 3.1 of the standard has it: UUID is new. */
public enum GenerationType { TABLE, SEQUENCE, IDENTITY, UUID, AUTO }
