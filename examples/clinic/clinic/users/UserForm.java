package clinic.users;

import clinic.common.Checks;
import java.util.regex.Pattern;

/** A new user. */
public record UserForm(String login, String password, Role role) {
    private static final Pattern LOGIN = Pattern.compile("[a-z][a-z0-9.-]{1,30}");

    /** @throws clinic.common.Invalid where a field has a fault */
    public UserForm checked() {
        new Checks().filled("login", login, 31)
                .shaped("login", login, LOGIN, "is no word of small letters")
                .filled("password", password, 100)
                .that(password == null || password.length() >= 8, "password", "is shorter than 8 characters")
                .given("role", role)
                .done();
        return this;
    }
}
