package karzhoul.jpa.processor;

import java.util.List;
import java.util.Locale;
import java.util.Set;
import java.util.TreeSet;
import java.util.stream.Collectors;
import javax.lang.model.SourceVersion;
import javax.lang.model.element.TypeElement;

/** The source of a static metamodel class. */
record SourceText(ManagedClass managed, List<Members.Attribute> attributes) {
    static final String GENERATED = "javax.annotation.processing.Generated";
    private static final String METAMODEL = "jakarta.persistence.metamodel.";

    /** The source, in a compilation of these managed classes. */
    String written(Set<TypeElement> classes) {
        StringBuilder text = new StringBuilder();
        if (!managed.packageName().isEmpty()) {
            text.append("package ").append(managed.packageName()).append(";\n\n");
        }
        Set<String> sorts = new TreeSet<>(attributes.stream().map(Members.Attribute::sort).toList());
        sorts.add("StaticMetamodel");
        if (managed.knowsGenerated()) {
            text.append("import ").append(GENERATED).append(";\n");
        }
        sorts.forEach(sort -> text.append("import ").append(METAMODEL).append(sort).append(";\n"));
        String type = managed.type().getQualifiedName().toString();
        String above = managed.above(classes);
        text.append("\n/** The attributes of {@link ").append(type).append("}. */\n");
        if (managed.knowsGenerated()) {
            text.append("@Generated(\"").append(StaticMetamodelProcessor.class.getName()).append("\")\n");
        }
        text.append("@StaticMetamodel(").append(type).append(".class)\n")
                .append("@SuppressWarnings({\"rawtypes\", \"all\"})\n")
                .append("public abstract class ").append(managed.simpleName())
                .append(above == null ? "" : " extends " + above).append(" {\n");
        attributes.stream().filter(each -> isNameable(each.name())).forEach(each -> field(text, type, each));
        constants(text);
        return text.append("}\n").toString();
    }

    private static boolean isNameable(String name) {
        return SourceVersion.isName(name);
    }

    private static void field(StringBuilder text, String type, Members.Attribute attribute) {
        text.append("    /** The attribute {@code ").append(attribute.name()).append("}. */\n")
                .append("    public static volatile ").append(attribute.sort()).append('<').append(type).append(", ")
                .append(attribute.arguments().stream().collect(Collectors.joining(", "))).append("> ")
                .append(attribute.name()).append(";\n");
    }

    /** The names of the attributes, but for one whose constant would have the name of an attribute. */
    private void constants(StringBuilder text) {
        Set<String> taken = attributes.stream().map(Members.Attribute::name).collect(Collectors.toSet());
        for (Members.Attribute attribute : attributes) {
            String constant = attribute.name().replaceAll("([a-z0-9])([A-Z])", "$1_$2").toUpperCase(Locale.ROOT);
            if (isNameable(constant) && taken.add(constant)) {
                text.append("    /** The name of the attribute {@code ").append(attribute.name()).append("}. */\n")
                        .append("    public static final String ").append(constant).append(" = \"")
                        .append(attribute.name()).append("\";\n");
            }
        }
    }
}
