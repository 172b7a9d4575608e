package clinic.documents;

/** A document with what is in it. */
public record Download(String name, String type, byte[] content) {}
