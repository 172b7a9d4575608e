package clinic.users;

/** What somebody signs in with. */
public record Credentials(String login, String password) {}
