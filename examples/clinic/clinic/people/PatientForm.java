package clinic.people;

import clinic.common.Checks;
import java.time.LocalDate;
import java.util.regex.Pattern;

/** What a person fills in of a patient; with the version that was shown, where the patient is known. */
public record PatientForm(String name, LocalDate born, String email, String phone, String notes, Integer version) {
    private static final Pattern EMAIL = Pattern.compile("[^@\\s]+@[^@\\s]+\\.[^@\\s]+");
    private static final Pattern PHONE = Pattern.compile("\\+?[0-9 ()/-]{3,30}");

    /** @throws clinic.common.Invalid where a field has a fault */
    public PatientForm checked() {
        new Checks().filled("name", name, 100)
                .given("born", born)
                .that(born == null || !born.isAfter(LocalDate.now()), "born", "is in the future")
                .that(born == null || born.getYear() >= 1880, "born", "is too long ago")
                .shaped("email", email, EMAIL, "is no address")
                .shaped("phone", phone, PHONE, "is no number")
                .shorter("notes", notes, 5000)
                .done();
        return this;
    }
}
