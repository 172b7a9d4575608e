package karzhoul.jpa.spi;

import jakarta.persistence.PersistenceException;
import jakarta.persistence.ValidationMode;
import jakarta.persistence.spi.PersistenceUnitInfo;
import jakarta.persistence.spi.PersistenceUnitTransactionType;
import java.io.IOException;
import java.net.URI;
import java.net.URISyntaxException;
import java.net.URL;
import java.util.ArrayList;
import java.util.HashSet;
import java.util.LinkedHashMap;
import java.util.List;
import java.util.Map;
import java.util.Optional;
import java.util.Set;
import karzhoul.jpa.model.RefusedUnit;

/** Finds the persistence units that are this provider's (chapters 8.2 and 9.2). */
public final class Units {
    /** The class of this provider, as {@code <provider>} names it. */
    public static final String PROVIDER = "karzhoul.jpa.KarzhoulProvider";

    private static final String PROVIDER_PROPERTY = "jakarta.persistence.provider";

    private Units() {}

    /**
     * The unit of this name in one of the files {@code META-INF/persistence.xml}; empty where there is none, or it is
     * another provider's. One that names no provider is this one's where its url begins with {@code karzhoul:}.
     *
     * @param given properties that count before those of the unit, or null
     * @throws RefusedUnit with all that is wrong with the unit
     * @throws PersistenceException where a file can't be read
     */
    public static Optional<UnitSettings> find(String name, Map<?, ?> given) {
        ClassLoader own = Thread.currentThread().getContextClassLoader();
        ClassLoader loader = own != null ? own : Units.class.getClassLoader();
        for (URL file : files(loader)) {
            for (Declared declared : PersistenceXml.read(file)) {
                if (declared.name().equals(name) && isOurs(declared, given)) {
                    return Optional.of(new UnitReader(declared, given, loader).read());
                }
            }
        }
        return Optional.empty();
    }

    /**
     * The unit that a container has read; empty where it is another provider's.
     *
     * @throws RefusedUnit with all that is wrong with the unit
     */
    public static Optional<UnitSettings> of(PersistenceUnitInfo info, Map<?, ?> given) {
        Declared declared = declared(info);
        ClassLoader own = info.getClassLoader();
        ClassLoader loader = own != null ? own : Thread.currentThread().getContextClassLoader();
        return isOurs(declared, given) ? Optional.of(new UnitReader(declared, given, loader).read()) : Optional.empty();
    }

    private static List<URL> files(ClassLoader loader) {
        try {
            Set<String> seen = new HashSet<>();
            List<URL> files = new ArrayList<>();
            var found = loader.getResources(PersistenceXml.PATH);
            while (found.hasMoreElements()) {
                URL file = found.nextElement();
                if (seen.add(file.toString())) {
                    files.add(file);
                }
            }
            return files;
        } catch (IOException fault) {
            throw new PersistenceException(PersistenceXml.PATH + " can't be looked for: " + fault.getMessage(), fault);
        }
    }

    private static boolean isOurs(Declared declared, Map<?, ?> given) {
        Map<String, Object> properties = UnitReader.merged(declared, given);
        Object named = properties.getOrDefault(PROVIDER_PROPERTY, declared.provider().orElse(null));
        return named == null ? Settings.isOurs(properties) : named.toString().equals(PROVIDER);
    }

    private static Declared declared(PersistenceUnitInfo info) {
        Map<String, Object> properties = new LinkedHashMap<>();
        if (info.getProperties() != null) {
            info.getProperties().forEach((name, value) -> properties.put(String.valueOf(name), value));
        }
        List<URI> jars = new ArrayList<>();
        orNone(info.getJarFileUrls()).forEach(url -> place(url).ifPresent(jars::add));
        boolean isJta = info.getTransactionType() == PersistenceUnitTransactionType.JTA;
        boolean needsValidation = info.getValidationMode() == ValidationMode.CALLBACK;
        return new Declared("the persistence unit " + info.getPersistenceUnitName(),
                place(info.getPersistenceUnitRootUrl()),
                info.getPersistenceUnitName(), Optional.ofNullable(info.getPersistenceProviderClassName()), isJta,
                orNone(info.getManagedClassNames()), jars, orNone(info.getMappingFileNames()),
                        info.excludeUnlistedClasses(),
                needsValidation, properties);
    }

    private static <V> List<V> orNone(List<V> values) {
        return values == null ? List.of() : values;
    }

    /** A folder or a JAR; empty of an address that is no file, in which classes can't be looked for. */
    private static Optional<URI> place(URL url) {
        if (url == null) {
            return Optional.empty();
        }
        String text = url.toString();
        if (text.startsWith("jar:") && text.endsWith("!/")) {
            text = text.substring("jar:".length(), text.length() - "!/".length());
        }
        try {
            return text.startsWith("file:") ? Optional.of(new URI(text)) : Optional.empty();
        } catch (URISyntaxException odd) {
            throw new PersistenceException(url + " is no address of a unit", odd);
        }
    }
}
