package clinic.documents;

import java.time.LocalDateTime;

/** A document in a list; its size in bytes. */
public record DocumentRow(long id, String name, String type, int size, LocalDateTime uploaded) {}
