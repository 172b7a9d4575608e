package karzhoul.jpa.tool;

import java.io.IOException;
import java.nio.file.Files;
import java.nio.file.Path;
import java.util.ArrayList;
import java.util.List;
import java.util.Optional;
import karzhoul.jpa.engine.StoredText;
import karzhoul.jpa.model.Fault;
import karzhoul.jpa.model.StoredMapping;
import karzhoul.jpa.spi.ProgramFile;

/**
 * {@code java -jar karzhoul-jpa.jar mapping STORE}: the mapping that a store was written with, for other tools. It needs
 * no library; what has {@code --unit NAME} needs those of the unit, by {@code --classes} or {@code -cp}. The status is 0, 2 where the words are wrong, and 4
 * where the store or the unit can't be read; of {@code migrate} that of {@code karzhoul migrate}.
 */
public final class Main {
    private static final int MISSAID = 2;
    private static final int FAILED = 4;
    private static final String USAGE = """
            Usage: java -jar karzhoul-jpa.jar mapping STORE [--program FILE]
                   java -jar karzhoul-jpa.jar mapping --unit NAME --classes PATH[:PATH] [--serve | --tables]
                   java -jar karzhoul-jpa.jar migrate STORE --unit NAME --classes PATH[:PATH] [--python PROGRAM] [WORD..]

            PATH is a JAR, a folder of classes, or FOLDER/* for the JARs in one: the unit, and the libraries that it
            and Karzhoul need. Where java -cp .. karzhoul.jpa.tool.Main has them all, --classes isn't needed.

            mapping prints the mapping that a store of a Java unit was written with, or that of a unit, as JSON on
            standard output. Its names are those of tables and columns; with --serve those of entities and
            attributes, as karzhoul serve --mapping takes it for units in Java; with --tables the tables too that
            another provider of the standard looks for, as karzhoul export --tables takes them.

            migrate brings a store over to the classes of a unit, where no opening does. It runs karzhoul migrate of
            the Python client, by python3 or PROGRAM, with other words as these:
              --with FILE.py  functions that tell what can't be told by names
              --drop WHAT     what is meant to go
              --plan          tells what would be done, and does nothing""";

    private Main() {}

    public static void main(String[] words) throws InterruptedException {
        List<String> rest = new ArrayList<>(List.of(words));
        if (rest.contains("--help") || rest.contains("-h")) {
            System.out.println(USAGE);
            return;
        }
        try {
            Optional<String> classes = taken(rest, "--classes");
            if (classes.isPresent()) {
                ClassPath.of(classes.get()).run(Main.class.getName(), rest);
                return;
            }
            String command = rest.isEmpty() ? "" : rest.remove(0);
            int status = command.equals("migrate") ? migrate(rest) : command.equals("mapping") ? mapping(rest) : MISSAID;
            if (status == MISSAID) {
                System.err.println(USAGE);
            }
            System.exit(status);
        } catch (IOException | RuntimeException fault) {
            System.err.println("karzhoul: " + fault.getMessage());
            System.exit(FAILED);
        } catch (NoClassDefFoundError missing) {
            System.err.println("karzhoul: " + missing.getMessage() + " isn't on the class path: name the unit and its libraries by"
                    + " --classes PATH[:PATH], or run it by -cp with them");
            System.exit(FAILED);
        }
    }

    private static int mapping(List<String> rest) throws IOException, InterruptedException {
        Optional<String> unit = taken(rest, "--unit");
        Optional<String> program = taken(rest, "--program");
        boolean isOfTables = unit.isPresent() && rest.remove("--tables");
        boolean isServed = unit.isPresent() && !isOfTables && rest.remove("--serve");
        if (rest.size() != (unit.isPresent() ? 0 : 1) || rest.stream().anyMatch(word -> word.startsWith("-"))) {
            return MISSAID;
        }
        System.out.println(isOfTables ? UnitMapping.tables(unit.get())
                : unit.isPresent() ? UnitMapping.of(unit.get(), isServed) : ofStore(Path.of(rest.get(0)), program));
        return 0;
    }

    private static int migrate(List<String> rest) throws IOException, InterruptedException {
        Optional<String> unit = taken(rest, "--unit");
        String python = taken(rest, "--python").orElse("python3");
        if (unit.isEmpty() || rest.isEmpty() || rest.get(0).startsWith("-")) {
            return MISSAID;
        }
        return new Migration(Path.of(rest.get(0)), unit.get()).run(python, rest.subList(1, rest.size()));
    }

    /** Takes a word with its value away, where both are there. */
    private static Optional<String> taken(List<String> words, String word) {
        int at = words.indexOf(word);
        if (at < 0 || at == words.size() - 1) {
            return Optional.empty();
        }
        words.remove(at);
        return Optional.of(words.remove(at));
    }

    private static String ofStore(Path store, Optional<String> named) throws IOException, InterruptedException {
        if (!Files.isRegularFile(store)) {
            throw new IOException("there is no file " + store);
        }
        List<Fault> faults = new ArrayList<>();
        Optional<String> known = named.or(() -> Optional.ofNullable(System.getProperty(ProgramFile.PROPERTY)));
        String program = new ProgramFile("the program", faults).find(known);
        if (!faults.isEmpty()) {
            throw new IOException(faults.get(0).toString());
        }
        String said = StoredText.read(program, store);
        if (said == null) {
            throw new IOException(store + " doesn't say with which classes it was written: it is another client's");
        }
        return StoredMapping.ofStore(said);
    }
}
