package karzhoul.jpa.processor;

import java.util.Set;
import javax.lang.model.element.Element;
import javax.lang.model.element.Modifier;
import javax.lang.model.element.NestingKind;
import javax.lang.model.element.TypeElement;
import javax.lang.model.util.Elements;

/** A class of which the static metamodel is made. */
record ManagedClass(TypeElement type, Elements elements, Types types) {
    /** Whether a class beside it may name it. */
    boolean isVisible() {
        for (Element at = type; at instanceof TypeElement; at = at.getEnclosingElement()) {
            if (at.getModifiers().contains(Modifier.PRIVATE)) {
                return false;
            }
        }
        return type.getNestingKind() == NestingKind.TOP_LEVEL || type.getNestingKind() == NestingKind.MEMBER;
    }

    String packageName() {
        return elements.getPackageOf(type).getQualifiedName().toString();
    }

    /** The name of the static metamodel class in its package. */
    String simpleName() {
        return simpleName(type);
    }

    String qualifiedName() {
        return qualifiedName(type);
    }

    private String qualifiedName(TypeElement of) {
        String in = elements.getPackageOf(of).getQualifiedName().toString();
        return in.isEmpty() ? simpleName(of) : in + "." + simpleName(of);
    }

    private static String simpleName(TypeElement of) {
        StringBuilder name = new StringBuilder(of.getSimpleName()).append('_');
        for (Element at = of.getEnclosingElement(); at instanceof TypeElement outer; at = at.getEnclosingElement()) {
            name.insert(0, outer.getSimpleName() + "_");
        }
        return name.toString();
    }

    /** The static metamodel class of the nearest managed class above, where there is one; else null. */
    String above(Set<TypeElement> classes) {
        for (TypeElement at = types.above(type); at != null; at = types.above(at)) {
            if (Annotations.isManaged(at)) {
                String name = qualifiedName(at);
                return classes.contains(at) || elements.getTypeElement(name) != null ? name : null;
            }
        }
        return null;
    }

    /** Whether its module reads the one with {@code Generated}. */
    boolean knowsGenerated() {
        return elements.getTypeElement(elements.getModuleOf(type), SourceText.GENERATED) != null;
    }
}
