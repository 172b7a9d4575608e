package bank;

/** A form about one account, which is filled in over several transactions. */
public interface Form {
    void read(long number);

    void add(long amount);

    /** Writes what was filled in. */
    void send();

    void close();
}
