package karzhoul.jpa.model;

/**
 * What is wrong with a class of a unit.
 *
 * @param place the class, and its member after a dot where there is one
 * @param what what is wrong, as a whole sentence without its full stop
 * @param remedy what to write in its place, as a whole sentence without its full stop
 */
public record Fault(String place, String what, String remedy) {
    @Override
    public String toString() {
        return place + ": " + what + ". " + remedy + ".";
    }
}
