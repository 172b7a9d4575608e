package karzhoul.jpa.tool;

import java.io.File;
import java.io.IOException;
import java.net.MalformedURLException;
import java.net.URL;
import java.net.URLClassLoader;
import java.nio.file.DirectoryStream;
import java.nio.file.Files;
import java.nio.file.Path;
import java.util.ArrayList;
import java.util.List;

/** A class path that {@code java -jar} doesn't take: this JAR's classes are found together with those that it names. */
final class ClassPath {
    private static final String JARS = File.separator + "*";

    private final List<URL> places;

    private ClassPath(List<URL> places) {
        this.places = places;
    }

    /**
     * What words as those of {@code -cp} name, behind this JAR.
     *
     * @throws IOException where there is no such file
     */
    static ClassPath of(String words) throws IOException {
        List<URL> places = new ArrayList<>(List.of(ClassPath.class.getProtectionDomain().getCodeSource().getLocation()));
        for (String word : words.split(File.pathSeparator)) {
            if (word.endsWith(JARS)) {
                addJars(Path.of(word.substring(0, word.length() - JARS.length())), places);
            } else if (!word.isEmpty()) {
                add(Path.of(word), places);
            }
        }
        return new ClassPath(places);
    }

    private static void addJars(Path folder, List<URL> places) throws IOException {
        if (!Files.isDirectory(folder)) {
            throw new IOException("--classes: there is no folder " + folder);
        }
        try (DirectoryStream<Path> jars = Files.newDirectoryStream(folder, "*.jar")) {
            List<Path> sorted = new ArrayList<>();
            jars.forEach(sorted::add);
            sorted.sort(null);
            for (Path jar : sorted) {
                add(jar, places);
            }
        }
    }

    private static void add(Path place, List<URL> places) throws MalformedURLException, IOException {
        if (!Files.exists(place)) {
            throw new IOException("--classes: there is no " + place);
        }
        places.add(place.toUri().toURL());
    }

    /** Runs a program of this JAR's again, which finds them all. */
    void run(String program, List<String> words) throws IOException {
        // (it isn't closed: the program ends with the JVM)
        URLClassLoader loader = new URLClassLoader(places.toArray(URL[]::new), ClassLoader.getPlatformClassLoader());
        Thread.currentThread().setContextClassLoader(loader);
        try {
            loader.loadClass(program).getMethod("main", String[].class).invoke(null, (Object) words.toArray(String[]::new));
        } catch (ReflectiveOperationException e) {
            throw new IOException("--classes: " + program + " can't be run: " + e.getMessage(), e);
        }
    }
}
