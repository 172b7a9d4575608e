package bank;

import java.util.List;

/** What was tried. */
public interface Journal {
    /** Stands whatever becomes of the transaction around it, of which it sees nothing. Answers the balance it saw. */
    long note(String text, long number);

    /** A part of the transaction around it, which must be there. */
    void noteWithin(String text);

    void open(Account account);

    /** Takes over what a detached account has. */
    void merge(Account account);

    /** Outside of a transaction. */
    void openNowhere(Account account);

    List<String> texts();

    Account byOwner(String owner);

    /** Asks for an entity that there isn't. */
    void askWrongly();
}
