package karzhoul.jpa.spi;

import jakarta.persistence.PersistenceException;
import java.net.URI;
import java.util.ArrayList;
import java.util.Collection;
import java.util.HashSet;
import java.util.LinkedHashMap;
import java.util.LinkedHashSet;
import java.util.List;
import java.util.Map;
import java.util.Objects;
import java.util.Optional;
import java.util.Set;
import java.util.concurrent.CompletableFuture;
import karzhoul.jpa.model.Fault;
import karzhoul.jpa.model.Reader;
import karzhoul.jpa.model.RefusedUnit;
import karzhoul.jpa.model.UnitModel;

/** Makes settings of what a unit declares; all that is wrong with it is told at once. */
final class UnitReader {
    private static final String ORM = "META-INF/orm.xml";

    private final Declared declared;
    private final ClassLoader loader;
    private final Map<String, Object> properties;
    private final List<Fault> faults = new ArrayList<>();
    private final String place;
    private final Set<String> ofCall = new HashSet<>();

    /** @param given the properties of the call, which count before those of the unit */
    UnitReader(Declared declared, Map<?, ?> given, ClassLoader loader) {
        this.declared = declared;
        this.loader = loader;
        this.properties = merged(declared, given);
        this.place = declared.file();
        if (given != null) {
            given.keySet().forEach(name -> ofCall.add(String.valueOf(name)));
        }
    }

    static Map<String, Object> merged(Declared declared, Map<?, ?> given) {
        Map<String, Object> all = new LinkedHashMap<>(declared.properties());
        if (given != null) {
            given.forEach((name, value) -> all.put(String.valueOf(name), value));
        }
        all.values().removeIf(Objects::isNull);
        return all;
    }

    /** @throws RefusedUnit with all that is wrong with the unit */
    UnitSettings read() {
        Settings settings = new Settings(this::placeOf, properties, faults);
        String url = settings.url();
        settings.checkSchema();
        settings.checkAdopt();
        settings.checkWatching();
        checkDeclared();
        var wait = settings.poolWait();
        var log = settings.log();
        List<Fault> ofProgram = new ArrayList<>();
        Optional<String> named = settings.program();
        boolean isServed = settings.isServed(url);
        var program = CompletableFuture.supplyAsync(
                () -> isServed ? null : new ProgramFile(placeOf(Settings.PROGRAM), ofProgram).find(named), UnitReader::beside);
        int told = faults.size();
        UnitModel unit = readClasses();
        String found = program.join();
        faults.addAll(told, ofProgram);
        if (!faults.isEmpty()) {
            throw new RefusedUnit(declared.name(), faults);
        }
        return new UnitSettings(declared.name(), unit, url, found, wait, log, properties);
    }

    private String placeOf(String property) {
        return ofCall.contains(property) ? "the properties that createEntityManagerFactory was handed" : place;
    }

    /** The program's sum is taken while the classes are read: a JVM that has just begun takes its time for either. */
    private static void beside(Runnable task) {
        Thread thread = new Thread(task, "karzhoul program");
        thread.setDaemon(true);
        thread.start();
    }

    private void checkDeclared() {
        if (declared.isJta()) {
            tell("its transactions are JTA's, which isn't there", "Write transaction-type=\"RESOURCE_LOCAL\"");
        }
        for (String file : declared.mappingFiles()) {
            tell("<mapping-file>" + file + "</mapping-file> isn't read", "Annotate the classes, and leave it out");
        }
        boolean hasOrm = declared.mappingFiles().isEmpty() && declared.root().filter(it -> ClassScan.has(it, ORM))
                .isPresent();
        if (hasOrm) {
            tell(ORM + " stands beside it, and isn't read", "Annotate the classes, and take it away");
        }
        if (declared.needsValidation()) {
            tell("its validation-mode is CALLBACK, and Bean Validation isn't asked",
                    "Write NONE, and validate in a callback");
        }
    }

    private UnitModel readClasses() {
        Set<String> names = new LinkedHashSet<>(declared.classes());
        if (!declared.excludesUnlisted()) {
            declared.root().ifPresent(root -> scan(root, names));
        }
        declared.jars().forEach(jar -> scan(jar, names));
        Set<Class<?>> classes = new LinkedHashSet<>();
        names.forEach(name -> load(name, classes));
        if (names.isEmpty()) {
            tell("it has no classes", "List them as <class>, or leave out exclude-unlisted-classes");
        }
        try {
            return Reader.read(declared.name(), classes);
        } catch (RefusedUnit refused) {
            faults.addAll(refused.faults());
            return null;
        }
    }

    private void scan(URI place, Collection<String> names) {
        try {
            names.addAll(ClassScan.names(place));
        } catch (PersistenceException fault) {
            tell(fault.getMessage(), "Name a JAR or a folder that is there");
        }
    }

    private void load(String name, Set<Class<?>> classes) {
        try {
            classes.add(Class.forName(name, false, loader));
        } catch (ClassNotFoundException missing) {
            tell("the class " + name + " isn't found", "Write its whole name, as shop.Person or shop.Place$At");
        } catch (LinkageError broken) {
            tell("the class " + name + " can't be loaded: " + broken, "Put what it needs on the class path");
        }
    }

    private void tell(String what, String remedy) {
        faults.add(new Fault(place, what, remedy));
    }
}
