package karzhoul.jpa.engine;

/** An object of the program by its number, which is of one run. */
public record Ref(long number) {}
