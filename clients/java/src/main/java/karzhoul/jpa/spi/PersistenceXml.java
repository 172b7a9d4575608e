package karzhoul.jpa.spi;

import jakarta.persistence.PersistenceException;
import java.io.IOException;
import java.io.InputStream;
import java.net.URI;
import java.net.URISyntaxException;
import java.net.URL;
import java.util.ArrayList;
import java.util.LinkedHashMap;
import java.util.List;
import java.util.Map;
import java.util.Optional;
import javax.xml.XMLConstants;
import javax.xml.parsers.DocumentBuilderFactory;
import javax.xml.parsers.ParserConfigurationException;
import org.w3c.dom.Element;
import org.w3c.dom.Node;
import org.xml.sax.SAXException;

/** Reads {@code META-INF/persistence.xml} (chapter 8.3): what matters, whatever else stands there. */
final class PersistenceXml {
    static final String PATH = "META-INF/persistence.xml";

    private final URL file;

    private PersistenceXml(URL file) {
        this.file = file;
    }

    /**
     * The units of a file.
     *
     * @throws PersistenceException where it is no XML, or can't be read
     */
    static List<Declared> read(URL file) {
        return new PersistenceXml(file).units();
    }

    private List<Declared> units() {
        List<Declared> units = new ArrayList<>();
        Element top = parse();
        if (!top.getLocalName().equals("persistence")) {
            throw new PersistenceException(
                    file + " begins with <" + top.getLocalName() + ">, and not with <persistence>");
        }
        for (Element unit : children(top, "persistence-unit")) {
            units.add(unit(unit));
        }
        return units;
    }

    private Element parse() {
        try {
            DocumentBuilderFactory factory = DocumentBuilderFactory.newDefaultInstance();
            factory.setNamespaceAware(true);
            factory.setFeature(XMLConstants.FEATURE_SECURE_PROCESSING, true);
            factory.setFeature("http://apache.org/xml/features/disallow-doctype-decl", true);
            var builder = factory.newDocumentBuilder();
            builder.setErrorHandler(null);
            var connection = file.openConnection();
            connection.setUseCaches(false);
            try (InputStream in = connection.getInputStream()) {
                return builder.parse(in).getDocumentElement();
            }
        } catch (IOException | SAXException | ParserConfigurationException fault) {
            throw new PersistenceException(file + " can't be read: " + fault.getMessage(), fault);
        }
    }

    private Declared unit(Element unit) {
        Map<String, Object> properties = new LinkedHashMap<>();
        for (Element all : children(unit, "properties")) {
            children(all, "property").forEach(it -> properties.put(it.getAttribute("name"), it.getAttribute("value")));
        }
        Optional<URI> root = root();
        List<URI> jars = new ArrayList<>();
        texts(unit, "jar-file").forEach(jar -> jars.add(jar(root, jar)));
        // A unit is of Java SE here: without an element, its transactions are its own (chapter 8.2.1.2).
        return new Declared(file.toString(), root, unit.getAttribute("name"), texts(unit, "provider").stream()
                .findFirst(),
                unit.getAttribute("transaction-type").equals("JTA"), texts(unit, "class"), jars,
                        texts(unit, "mapping-file"),
                texts(unit, "exclude-unlisted-classes").stream().anyMatch(it -> !it.equals("false")),
                texts(unit, "validation-mode").contains("CALLBACK"), properties);
    }

    /** The folder or the JAR that has META-INF. */
    private Optional<URI> root() {
        String at = file.toString();
        String base = at.substring(0, at.length() - PATH.length());
        try {
            if (base.startsWith("jar:") && base.endsWith("!/")) {
                base = base.substring("jar:".length(), base.length() - "!/".length());
            }
            return base.startsWith("file:") ? Optional.of(new URI(base)) : Optional.empty();
        } catch (URISyntaxException odd) {
            throw new PersistenceException(file + " stands where its classes can't be looked for", odd);
        }
    }

    private URI jar(Optional<URI> root, String jar) {
        try {
            URI named = new URI(null, null, jar, null);
            return named.isAbsolute() || root.isEmpty() ? new URI(jar) : root.get().resolve(named);
        } catch (URISyntaxException odd) {
            throw new PersistenceException(file + " names " + jar + " as <jar-file>, which is no address", odd);
        }
    }

    private static List<String> texts(Element parent, String name) {
        return children(parent, name).stream().map(it -> it.getTextContent().trim()).toList();
    }

    private static List<Element> children(Element parent, String name) {
        List<Element> all = new ArrayList<>();
        for (Node at = parent.getFirstChild(); at != null; at = at.getNextSibling()) {
            if (at instanceof Element element && element.getLocalName().equals(name)) {
                all.add(element);
            }
        }
        return all;
    }
}
