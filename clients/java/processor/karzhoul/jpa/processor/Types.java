package karzhoul.jpa.processor;

import java.util.List;
import java.util.stream.Collectors;
import javax.lang.model.element.TypeElement;
import javax.lang.model.type.ArrayType;
import javax.lang.model.type.DeclaredType;
import javax.lang.model.type.PrimitiveType;
import javax.lang.model.type.TypeKind;
import javax.lang.model.type.TypeMirror;
import javax.lang.model.type.TypeVariable;
import javax.lang.model.type.WildcardType;

/** Types as they are written in a static metamodel, where type variables are their bounds. */
record Types(javax.lang.model.util.Types utilities) {
    /** The class above, or null. */
    TypeElement above(TypeElement type) {
        TypeMirror above = type.getSuperclass();
        return above.getKind() == TypeKind.DECLARED ? (TypeElement) utilities.asElement(above) : null;
    }

    /** The name of the class of a type; empty of what is none. */
    String className(TypeMirror type) {
        return type.getKind() == TypeKind.DECLARED
                ? ((TypeElement) utilities.asElement(type)).getQualifiedName().toString() : "";
    }

    /** An argument of a type, or null. */
    TypeMirror argument(TypeMirror type, int place) {
        List<? extends TypeMirror> arguments = type instanceof DeclaredType declared ? declared.getTypeArguments()
                : List.of();
        return place < arguments.size() ? arguments.get(place) : null;
    }

    /** A type as an argument of another one. */
    String boxed(TypeMirror type) {
        return type instanceof PrimitiveType primitive
                ? utilities.boxedClass(primitive).getQualifiedName().toString() : written(type);
    }

    private String written(TypeMirror type) {
        if (type instanceof PrimitiveType) {
            return type.getKind().name().toLowerCase(java.util.Locale.ROOT);
        } else if (type instanceof ArrayType array) {
            return written(array.getComponentType()) + "[]";
        } else if (type instanceof TypeVariable variable) {
            return written(utilities.erasure(variable));
        } else if (type instanceof WildcardType wildcard) {
            return wildcard.getExtendsBound() == null ? "java.lang.Object" : written(wildcard.getExtendsBound());
        } else if (type instanceof DeclaredType declared && !declared.getTypeArguments().isEmpty()) {
            return className(type) + declared.getTypeArguments().stream()
                    .map(one -> one instanceof WildcardType wildcard ? bounded(wildcard) : written(one))
                    .collect(Collectors.joining(", ", "<", ">"));
        }
        return className(type).isEmpty() ? type.toString() : className(type);
    }

    private String bounded(WildcardType wildcard) {
        if (wildcard.getExtendsBound() != null) {
            return "? extends " + written(wildcard.getExtendsBound());
        }
        return wildcard.getSuperBound() != null ? "? super " + written(wildcard.getSuperBound()) : "?";
    }

    boolean isSame(TypeMirror one, TypeMirror other) {
        return utilities.isSameType(utilities.erasure(one), utilities.erasure(other));
    }
}
