package clinic.people;

import clinic.common.Checks;

/** A new doctor. */
public record DoctorForm(String name, String department) {
    /** @throws clinic.common.Invalid where a field has a fault */
    public DoctorForm checked() {
        new Checks().filled("name", name, 100).filled("department", department, 20).done();
        return this;
    }
}
