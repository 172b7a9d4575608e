package clinic.users;

import java.security.GeneralSecurityException;
import java.security.MessageDigest;
import java.security.SecureRandom;
import javax.crypto.SecretKeyFactory;
import javax.crypto.spec.PBEKeySpec;

/** Hashes of passwords, by PBKDF2. */
final class Passwords {
    private static final SecureRandom RANDOM = new SecureRandom();
    private static final int ROUNDS = 20_000;
    private static final int BITS = 256;

    private Passwords() {}

    static byte[] salt() {
        var salt = new byte[16];
        RANDOM.nextBytes(salt);
        return salt;
    }

    static byte[] hash(String password, byte[] salt) {
        try {
            return SecretKeyFactory.getInstance("PBKDF2WithHmacSHA256")
                    .generateSecret(new PBEKeySpec(password.toCharArray(), salt, ROUNDS, BITS))
                    .getEncoded();
        } catch (GeneralSecurityException failed) {
            throw new IllegalStateException("this JVM has no PBKDF2", failed);
        }
    }

    /** Whether two hashes are the same, in a time that doesn't tell where they differ. */
    static boolean isSame(byte[] one, byte[] other) {
        return MessageDigest.isEqual(one, other);
    }
}
