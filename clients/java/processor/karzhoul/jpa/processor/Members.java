package karzhoul.jpa.processor;

import java.util.ArrayList;
import java.util.LinkedHashMap;
import java.util.List;
import java.util.Map;
import java.util.Set;
import javax.lang.model.element.AnnotationMirror;
import javax.lang.model.element.Element;
import javax.lang.model.element.ElementKind;
import javax.lang.model.element.ExecutableElement;
import javax.lang.model.element.Modifier;
import javax.lang.model.element.TypeElement;
import javax.lang.model.type.TypeKind;
import javax.lang.model.type.TypeMirror;

/** The persistent members that a class declares, as fields of its static metamodel (chapter 2.3). */
final class Members {
    private static final Map<String, String> COLLECTIONS = Map.of("java.util.Collection", "CollectionAttribute",
            "java.util.List", "ListAttribute", "java.util.Set", "SetAttribute", "java.util.Map", "MapAttribute");

    private final TypeElement type;
    private final Types types;

    /**
     * A field of a static metamodel.
     *
     * @param sort the name of the attribute's interface
     * @param arguments its type arguments behind the class
     */
    record Attribute(String name, String sort, List<String> arguments) {}

    Members(TypeElement type, Types types) {
        this.type = type;
        this.types = types;
    }

    List<Attribute> all() {
        boolean byProperty = isByProperty();
        Map<String, Attribute> found = new LinkedHashMap<>();
        for (Element member : type.getEnclosedElements()) {
            String own = access(member);
            boolean isAccessed = own == null ? byProperty == (member.getKind() == ElementKind.METHOD)
                    : own.equals("PROPERTY") == (member.getKind() == ElementKind.METHOD);
            if (isAccessed && isPersistent(member)) {
                String name = member instanceof ExecutableElement getter ? propertyOf(getter)
                        : member.getSimpleName().toString();
                found.putIfAbsent(name, attribute(name, member));
            }
        }
        return List.copyOf(found.values());
    }

    private static String access(Element element) {
        AnnotationMirror access = Annotations.find(element, "Access");
        return access == null ? null : String.valueOf(Annotations.value(access, "value"));
    }

    /** Whether getters are persistent, and not fields. */
    private boolean isByProperty() {
        String own = access(type);
        if (own != null) {
            return own.equals("PROPERTY");
        }
        Boolean byKey = placed(Annotations.KEYS);
        Boolean byAny = byKey != null ? byKey : placed(Annotations.MAPPING);
        return byAny != null && byAny;
    }

    /** Whether the nearest of these annotations stand at getters; null where there are none. */
    private Boolean placed(Set<String> names) {
        for (TypeElement at = type; at != null; at = types.above(at)) {
            if (Annotations.has(at, "Access")) {
                continue;
            }
            boolean isOfFields = false;
            boolean isOfMethods = false;
            for (Element member : at.getEnclosedElements()) {
                boolean isMarked = Annotations.hasAny(member, names);
                isOfFields |= isMarked && member.getKind() == ElementKind.FIELD;
                isOfMethods |= isMarked && member.getKind() == ElementKind.METHOD;
            }
            if (isOfFields || isOfMethods) {
                return !isOfFields;
            }
        }
        return null;
    }

    private boolean isPersistent(Element member) {
        Set<Modifier> modifiers = member.getModifiers();
        if (modifiers.contains(Modifier.STATIC) || modifiers.contains(Modifier.TRANSIENT)
                || Annotations.has(member, "Transient")) {
            return false;
        }
        return member.getKind() == ElementKind.FIELD
                || member instanceof ExecutableElement method && propertyOf(method) != null && hasSetter(method);
    }

    /** The name of the property of which a method would be the getter, or null. */
    private static String propertyOf(ExecutableElement method) {
        String name = method.getSimpleName().toString();
        TypeMirror type = method.getReturnType();
        boolean isTruth = type.getKind() == TypeKind.BOOLEAN || type.toString().equals("java.lang.Boolean");
        int cut = name.startsWith("get") && type.getKind() != TypeKind.VOID ? 3
                : name.startsWith("is") && isTruth ? 2 : 0;
        if (cut == 0 || name.length() == cut || !method.getParameters().isEmpty()) {
            return null;
        }
        String rest = name.substring(cut);
        boolean isShout = rest.length() > 1 && Character.isUpperCase(rest.charAt(0))
                && Character.isUpperCase(rest.charAt(1));
        return isShout ? rest : Character.toLowerCase(rest.charAt(0)) + rest.substring(1);
    }

    private boolean hasSetter(ExecutableElement getter) {
        String name = getter.getSimpleName().toString();
        String setter = "set" + name.substring(name.startsWith("is") ? 2 : 3);
        for (TypeElement at = type; at != null; at = types.above(at)) {
            for (Element member : at.getEnclosedElements()) {
                if (member instanceof ExecutableElement method && method.getSimpleName().contentEquals(setter)
                        && method.getParameters().size() == 1
                        && types.isSame(method.getParameters().get(0).asType(), getter.getReturnType())) {
                    return true;
                }
            }
        }
        return false;
    }

    // ---- attributes

    private Attribute attribute(String name, Element member) {
        TypeMirror has = member instanceof ExecutableElement getter ? getter.getReturnType() : member.asType();
        String sort = COLLECTIONS.get(types.className(has));
        AnnotationMirror many = Annotations.MANY.stream().map(one -> Annotations.find(member, one))
                .filter(one -> one != null).findFirst().orElse(null);
        if (sort == null || many == null) {
            return new Attribute(name, "SingularAttribute", List.of(types.boxed(target(member, has))));
        }
        List<String> arguments = new ArrayList<>();
        boolean isMap = sort.equals("MapAttribute");
        if (isMap) {
            arguments.add(told(types.argument(has, 0)));
        }
        Object named = Annotations.value(many, "targetEntity");
        arguments.add(told(named instanceof TypeMirror target ? target : types.argument(has, isMap ? 1 : 0)));
        return new Attribute(name, sort, arguments);
    }

    /** What a relation to one leads to, where its annotation says that. */
    private static TypeMirror target(Element member, TypeMirror has) {
        for (String one : List.of("ManyToOne", "OneToOne")) {
            AnnotationMirror annotation = Annotations.find(member, one);
            if (annotation != null && Annotations.value(annotation, "targetEntity") instanceof TypeMirror target) {
                return target;
            }
        }
        return has;
    }

    private String told(TypeMirror argument) {
        return argument == null ? "java.lang.Object" : types.boxed(argument);
    }
}
