package karzhoul.jpa.model;

/** A collection that reads its members when it is first looked at (chapter 11.1.6: LAZY). */
public interface ReadLater {
    /** Whether its members are there. */
    boolean isRead();

    /** Whether they are there, or can be read still. */
    boolean isReadable();
}
