package karzhoul.jpa.spi;

import static org.junit.jupiter.api.Assertions.assertEquals;
import static org.junit.jupiter.api.Assertions.assertFalse;
import static org.junit.jupiter.api.Assertions.assertNull;
import static org.junit.jupiter.api.Assertions.assertThrows;
import static org.junit.jupiter.api.Assertions.assertTrue;

import jakarta.persistence.AttributeConverter;
import jakarta.persistence.Convert;
import jakarta.persistence.Entity;
import jakarta.persistence.Id;
import jakarta.persistence.PersistenceException;
import java.io.IOException;
import java.io.InputStream;
import java.io.OutputStream;
import java.net.URL;
import java.net.URLClassLoader;
import java.nio.file.Files;
import java.nio.file.Path;
import java.time.Duration;
import java.util.ArrayList;
import java.util.HashMap;
import java.util.List;
import java.util.Map;
import java.util.Optional;
import java.util.function.Consumer;
import java.util.jar.JarEntry;
import java.util.jar.JarOutputStream;
import java.util.stream.Collectors;
import karzhoul.jpa.KarzhoulProvider;
import karzhoul.jpa.model.EntityModel;
import karzhoul.jpa.model.Fault;
import karzhoul.jpa.model.RefusedUnit;
import org.junit.jupiter.api.AfterEach;
import org.junit.jupiter.api.BeforeEach;
import org.junit.jupiter.api.Test;
import org.junit.jupiter.api.io.TempDir;

/** Units of {@code persistence.xml}: found, scanned, read, and refused with all that is wrong (chapter 8). */
class UnitsTest {
    private static final String URL_PROPERTY = property("jakarta.persistence.jdbc.url", "karzhoul:memory");
    private static final String PROVIDER = "<provider>karzhoul.jpa.KarzhoulProvider</provider>";
    private static final String LISTED = "<class>" + One.class.getName() + "</class>";

    @Entity static class One { @Id int id; }
    @Entity static class Two { @Id int id; }
    static class NoEntity {}

    @TempDir Path folder;
    private ClassLoader before;

    @BeforeEach
    void keepLoader() {
        before = Thread.currentThread().getContextClassLoader();
    }

    @AfterEach
    void giveLoaderBack() {
        Thread.currentThread().setContextClassLoader(before);
    }

    /** Puts a file with these units on the class path, for this thread alone. */
    private void units(String... units) throws IOException {
        write(folder, xml(units));
        see(folder);
    }

    private static void write(Path root, String file) throws IOException {
        Files.createDirectories(root.resolve("META-INF"));
        Files.writeString(root.resolve("META-INF/persistence.xml"), file);
    }

    private void see(Path place) throws IOException {
        Thread.currentThread().setContextClassLoader(new URLClassLoader(new URL[] {place.toUri().toURL()}, before));
    }

    private static String xml(String... units) {
        return "<?xml version=\"1.0\"?><persistence xmlns=\"https://jakarta.ee/xml/ns/persistence\" version=\"3.0\">"
                + String.join("", units) + "</persistence>";
    }

    private static String unit(String name, String inside, String... properties) {
        return "<persistence-unit name=\"" + name + "\">" + inside + "<properties>" + String.join("", properties)
                + "</properties></persistence-unit>";
    }

    private static String property(String name, String value) {
        return "<property name=\"" + name + "\" value=\"" + value + "\"/>";
    }

    /** Copies the class files of these classes below a folder. */
    private static void copy(Path to, Class<?>... classes) throws IOException {
        for (Class<?> javaClass : classes) {
            String name = javaClass.getName().replace('.', '/') + ".class";
            Path file = to.resolve(name);
            Files.createDirectories(file.getParent());
            try (InputStream in = UnitsTest.class.getClassLoader().getResourceAsStream(name)) {
                Files.copy(in, file);
            }
        }
    }

    private static Path jar(Path jar, Path content) throws IOException {
        try (OutputStream out = Files.newOutputStream(jar); JarOutputStream zip = new JarOutputStream(out);
                var files = Files.walk(content)) {
            for (Path file : (Iterable<Path>) files.filter(Files::isRegularFile)::iterator) {
                zip.putNextEntry(new JarEntry(content.relativize(file).toString()));
                zip.write(Files.readAllBytes(file));
            }
        }
        return jar;
    }

    private static List<String> entities(String unit) {
        UnitSettings settings = Units.find(unit, null).orElseThrow();
        return settings.unit().entities().stream().map(EntityModel::name).sorted().toList();
    }

    @Test
    void aListedUnit() throws IOException {
        units(unit("other", "<provider>org.hibernate.jpa.HibernatePersistenceProvider</provider>" + LISTED, URL_PROPERTY),
                unit("mine", PROVIDER + LISTED + "<exclude-unlisted-classes/>", URL_PROPERTY, property("karzhoul.pool.wait", "250")));
        UnitSettings settings = Units.find("mine", null).orElseThrow();
        assertEquals("mine", settings.name());
        assertEquals("karzhoul:memory", settings.url());
        assertEquals(Duration.ofMillis(250), settings.poolWait());
        assertEquals(Optional.empty(), settings.log());
        assertEquals(System.getProperty("karzhoul.program"), settings.program());
        assertEquals(List.of("One"), entities("mine"));
        assertEquals(Optional.empty(), Units.find("other", null));
        assertEquals(Optional.empty(), Units.find("third", Map.of()));
        assertNull(new KarzhoulProvider().createEntityManagerFactory("third", Map.of()));
        assertNull(new KarzhoulProvider().createEntityManagerFactory("other", null));
    }

    @Test
    void aUnitWithoutAProviderIsOursByItsUrl() throws IOException {
        units(unit("mine", LISTED, URL_PROPERTY), unit("theirs", LISTED));
        assertTrue(Units.find("mine", null).isPresent());
        assertEquals(Optional.empty(), Units.find("theirs", null));
        assertTrue(Units.find("theirs", Map.of("jakarta.persistence.jdbc.url", "karzhoul:memory")).isPresent());
        assertEquals(Optional.empty(), Units.find("mine", Map.of("jakarta.persistence.provider", "another.Provider")));
    }

    @Test
    void propertiesOfTheCallCountFirst() throws IOException {
        units(unit("mine", PROVIDER + LISTED, URL_PROPERTY, property("a", "unit")));
        List<String> lines = new ArrayList<>();
        Consumer<String> log = lines::add;
        Map<String, Object> given = new HashMap<>();
        given.put("jakarta.persistence.jdbc.url", "karzhoul:shop.db");
        given.put("a", 5);
        given.put("karzhoul.log", log);
        given.put("nothing", null);
        UnitSettings settings = Units.find("mine", given).orElseThrow();
        assertEquals("karzhoul:shop.db", settings.url());
        assertEquals(5, settings.properties().get("a"));
        assertEquals(log, settings.log().orElseThrow());
        assertFalse(settings.properties().containsKey("nothing"));
    }

    @Test
    void theRootIsScannedUnlessTheUnitSaysNo() throws IOException {
        copy(folder, One.class, Two.class, NoEntity.class);
        units(unit("all", PROVIDER, URL_PROPERTY), unit("some", PROVIDER + LISTED + "<exclude-unlisted-classes/>", URL_PROPERTY),
                unit("more", PROVIDER + LISTED + "<exclude-unlisted-classes>false</exclude-unlisted-classes>", URL_PROPERTY));
        assertEquals(List.of("One", "Two"), entities("all"));
        assertEquals(List.of("One"), entities("some"));
        assertEquals(List.of("One", "Two"), entities("more"));
    }

    @Test
    void classesOfALaterJavaAreFoundToo() throws IOException {
        copy(folder, One.class);
        Path file = folder.resolve(One.class.getName().replace('.', '/') + ".class");
        byte[] bytes = Files.readAllBytes(file);
        bytes[7] = 99;
        Files.write(file, bytes);
        assertEquals(List.of(One.class.getName()), ClassScan.names(folder.toUri()));
    }

    @Test
    void aJarIsScannedAndItsJarFilesToo() throws IOException {
        Path content = folder.resolve("content");
        copy(content, One.class);
        write(content, xml(unit("packed", PROVIDER + "<jar-file>lib dir/more.jar</jar-file>", URL_PROPERTY)));
        Path more = folder.resolve("more");
        copy(more, Two.class);
        Files.createDirectories(folder.resolve("lib dir"));
        jar(folder.resolve("lib dir/more.jar"), more);
        see(jar(folder.resolve("my app.jar"), content));
        assertEquals(List.of("One", "Two"), entities("packed"));
    }

    @Test
    void allThatIsWrongIsToldAtOnce() throws IOException {
        Files.createDirectories(folder.resolve("META-INF"));
        Files.writeString(folder.resolve("META-INF/orm.xml"), "<entity-mappings/>");
        String inside = "<class>shop.Missing</class><class>" + NoEntity.class.getName()
                + "</class><jar-file>missing.jar</jar-file><validation-mode>CALLBACK</validation-mode>";
        String unit = unit("bad", PROVIDER + inside, property("jakarta.persistence.jdbc.url", "jdbc:h2:mem:x"),
                property("karzhoul.pool.wait", "soon"), property("karzhoul.log", "loud"), property("karzhoul.program", "/nowhere/jpa"),
                property("jakarta.persistence.schema-generation.database.action", "drop-and-create"));
        units(unit.replace("name=\"bad\"", "name=\"bad\" transaction-type=\"JTA\""));
        RefusedUnit refused = assertThrows(RefusedUnit.class, () -> Units.find("bad", null));
        List<String> whats = refused.faults().stream().map(Fault::what).toList();
        assertEquals(List.of("jakarta.persistence.jdbc.url is jdbc:h2:mem:x",
                "jakarta.persistence.schema-generation.database.action is drop-and-create, and nothing is dropped",
                "its transactions are JTA's, which isn't there",
                "META-INF/orm.xml stands beside it, and isn't read",
                "its validation-mode is CALLBACK, and Bean Validation isn't asked",
                "karzhoul.pool.wait is soon",
                "karzhoul.log is loud",
                "karzhoul.program is /nowhere/jpa, which is no file that can be run"), whats.subList(0, 8));
        assertTrue(whats.get(8).contains("missing.jar can't be read for classes"), whats.get(8));
        assertEquals(List.of("the class shop.Missing isn't found",
                "it has none of @Entity, @Embeddable, @MappedSuperclass and @Converter"), whats.subList(9, 11));
        assertEquals(folder.resolve("META-INF/persistence.xml").toUri().toURL().toString(), refused.faults().get(0).place());
        assertTrue(refused.getMessage().startsWith("The persistence unit bad has 11 faults:"), refused.getMessage());
    }

    @Test
    void adoptIsTrueOrFalse() throws IOException {
        units(unit("mine", PROVIDER + LISTED, URL_PROPERTY, property("karzhoul.adopt", "yes")));
        RefusedUnit refused = assertThrows(RefusedUnit.class, () -> Units.find("mine", null));
        assertEquals(List.of("karzhoul.adopt is yes"), refused.faults().stream().map(Fault::what).toList());
        assertTrue(Units.find("mine", Map.of("karzhoul.adopt", "false")).isPresent());
    }

    @Test
    void whatTheCallHandsInIsToldAsThat() throws IOException {
        units(unit("mine", PROVIDER + LISTED, URL_PROPERTY, property("karzhoul.log", "loud")));
        RefusedUnit refused = assertThrows(RefusedUnit.class, () -> Units.find("mine", Map.of("karzhoul.pool.wait", "soon",
            "jakarta.persistence.jdbc.url", "karzhoul:tcp:127.0.0.1", "karzhoul.slow", "100")));
        String handed = "the properties that createEntityManagerFactory was handed";
        assertEquals(Map.of("karzhoul.log is loud", folder.resolve("META-INF/persistence.xml").toUri().toURL().toString(),
            "karzhoul.pool.wait is soon", handed, "jakarta.persistence.jdbc.url is karzhoul:tcp:127.0.0.1", handed),
            refused.faults().stream().collect(Collectors.toMap(Fault::what, Fault::place)));
    }

    @Test
    void aUnitOfNothing() throws IOException {
        units(unit("empty", PROVIDER + "<mapping-file>META-INF/more.xml</mapping-file><exclude-unlisted-classes/>"));
        RefusedUnit refused = assertThrows(RefusedUnit.class, () -> Units.find("empty", null));
        assertEquals(List.of("it has no jakarta.persistence.jdbc.url", "<mapping-file>META-INF/more.xml</mapping-file> isn't read",
                "it has no classes"), refused.faults().stream().map(Fault::what).toList());
    }

    @Test
    void whatIsNoUnitsFile() throws IOException {
        write(folder, "<persistence>");
        see(folder);
        assertTrue(assertThrows(PersistenceException.class, () -> Units.find("any", null)).getMessage().contains("can't be read"));
        write(folder, "<!DOCTYPE p [<!ENTITY e SYSTEM \"file:///etc/passwd\">]><persistence>&e;</persistence>");
        assertThrows(PersistenceException.class, () -> Units.find("any", null));
        write(folder, "<other/>");
        assertThrows(PersistenceException.class, () -> Units.find("any", null));
    }

    @Entity static class Wrong { @Id int id; @Convert(converter = NoConverter.class) String name; }
    @SuppressWarnings("rawtypes") abstract static class NoConverter implements AttributeConverter {}

    @Test
    void faultsOfClassesAndOfPropertiesTogether() throws IOException {
        units(unit("wrong", PROVIDER + "<class>" + Wrong.class.getName() + "</class><exclude-unlisted-classes/>"));
        RefusedUnit refused = assertThrows(RefusedUnit.class, () -> Units.find("wrong", null));
        assertEquals(2, refused.faults().size(), refused.getMessage());
    }
}
