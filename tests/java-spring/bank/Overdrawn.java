package bank;

public class Overdrawn extends RuntimeException {
    private static final long serialVersionUID = 1;

    Overdrawn(long number) {
        super("the account " + number + " is overdrawn");
    }
}
