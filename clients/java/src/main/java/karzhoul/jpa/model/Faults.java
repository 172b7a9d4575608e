package karzhoul.jpa.model;

import java.util.ArrayList;
import java.util.List;

/** The faults that are found as classes are read; all of them are told at once. */
final class Faults {
    private final List<Fault> found = new ArrayList<>();

    void add(Class<?> javaClass, String what, String remedy) {
        note(new Fault(javaClass.getName(), what, remedy));
    }

    void add(Class<?> javaClass, String member, String what, String remedy) {
        note(new Fault(javaClass.getName() + "." + member, what, remedy));
    }

    /** @param place the class, and the member where it is of one */
    void add(String place, String what, String remedy) {
        note(new Fault(place, what, remedy));
    }

    void add(Member member, String what, String remedy) {
        add(member.declaring(), member.name(), what, remedy);
    }

    /** A mapped superclass is read once for each of its entities, and its faults are told once. */
    private void note(Fault fault) {
        if (!found.contains(fault)) {
            found.add(fault);
        }
    }

    List<Fault> found() {
        return List.copyOf(found);
    }
}
