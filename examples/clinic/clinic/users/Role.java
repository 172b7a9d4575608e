package clinic.users;

/** What a user may do: an administrator makes users and doctors too. */
public enum Role {
    STAFF,
    ADMINISTRATOR
}
