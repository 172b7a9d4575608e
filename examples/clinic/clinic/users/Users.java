package clinic.users;

import clinic.common.Refusal;
import jakarta.persistence.EntityManager;
import java.util.List;

/** The users of a transaction. */
public final class Users {
    private final EntityManager manager;

    public Users(EntityManager manager) {
        this.manager = manager;
    }

    public List<UserRow> all() {
        return manager.createQuery("SELECT u FROM User u ORDER BY u.login", User.class)
                .getResultList().stream().map(each -> new UserRow(each.login(), each.role())).toList();
    }

    /** @throws Refusal where the login is another one's */
    public UserRow add(UserForm form) {
        if (manager.find(User.class, form.login()) != null) {
            throw Refusal.conflict("there is a user " + form.login());
        }
        manager.persist(new User(form.login(), form.role(), form.password()));
        return new UserRow(form.login(), form.role());
    }

    /** @throws Refusal where there is no such user, or the password is another one */
    public UserRow of(Credentials given) {
        var user = given.login() == null ? null : manager.find(User.class, given.login());
        if (user == null || given.password() == null || !user.has(given.password())) {
            throw new Refusal(401, "no user has this login and this password");
        }
        return new UserRow(user.login(), user.role());
    }
}
