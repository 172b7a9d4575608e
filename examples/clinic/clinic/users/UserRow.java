package clinic.users;

/** A user in a list, and in a session. */
public record UserRow(String login, Role role) {}
