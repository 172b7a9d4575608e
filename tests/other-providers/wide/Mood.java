package wide;

/** An enum. */
public enum Mood {
    GLAD,
    SAD
}
