package karzhoul.jpa.spi;

import java.net.URI;
import java.util.List;
import java.util.Map;
import java.util.Optional;

/**
 * A persistence unit as a {@code persistence.xml} or a container declares it (chapter 8.2).
 *
 * @param file the {@code persistence.xml}, for words
 * @param root the folder or the JAR with the unit's classes, where it is known
 * @param isJta whether its transactions are a container's
 * @param classes the names of the listed classes
 * @param jars further JARs and folders with classes
 * @param mappingFiles the listed orm files
 * @param excludesUnlisted whether the classes of the root count only where they are listed
 * @param needsValidation whether the unit asks for Bean Validation by name
 */
record Declared(
        String file, Optional<URI> root, String name, Optional<String> provider, boolean isJta, List<String> classes,
        List<URI> jars, List<String> mappingFiles, boolean excludesUnlisted, boolean needsValidation,
        Map<String, Object> properties) {}
