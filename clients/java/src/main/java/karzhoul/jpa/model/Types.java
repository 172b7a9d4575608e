package karzhoul.jpa.model;

import java.lang.invoke.MethodType;
import java.lang.reflect.GenericArrayType;
import java.lang.reflect.ParameterizedType;
import java.lang.reflect.Type;
import java.lang.reflect.TypeVariable;
import java.lang.reflect.WildcardType;
import java.util.Arrays;
import java.util.HashMap;
import java.util.Map;
import java.util.Optional;

/** What the types of members are, where classes above them have type variables. */
final class Types {
    /** A type with its arguments, all variables replaced. */
    private record Applied(Class<?> getRawType, Type[] arguments, Type getOwnerType) implements ParameterizedType {
        @Override
        public Type[] getActualTypeArguments() {
            return arguments.clone();
        }
    }

    private Types() {}

    /** What the variables of all classes and interfaces above a class stand for. */
    static Map<TypeVariable<?>, Type> arguments(Class<?> javaClass) {
        Map<TypeVariable<?>, Type> known = new HashMap<>();
        collect(javaClass, known);
        return known;
    }

    private static void collect(Class<?> javaClass, Map<TypeVariable<?>, Type> known) {
        if (javaClass.getGenericSuperclass() != null) {
            bind(javaClass.getGenericSuperclass(), known);
            collect(javaClass.getSuperclass(), known);
        }
        for (Type above : javaClass.getGenericInterfaces()) {
            bind(above, known);
            collect(raw(above), known);
        }
    }

    private static void bind(Type above, Map<TypeVariable<?>, Type> known) {
        if (above instanceof ParameterizedType applied) {
            TypeVariable<?>[] variables = raw(applied).getTypeParameters();
            Type[] arguments = applied.getActualTypeArguments();
            for (int i = 0; i < variables.length; i++) {
                known.put(variables[i], resolve(arguments[i], known));
            }
        }
    }

    /** A type with its variables replaced by what is known of them, else by their bounds. */
    static Type resolve(Type type, Map<TypeVariable<?>, Type> known) {
        if (type instanceof TypeVariable<?> variable) {
            Type found = known.get(variable);
            return found != null ? found : raw(variable);
        }
        if (type instanceof WildcardType wildcard) {
            return resolve(wildcard.getUpperBounds()[0], known);
        }
        if (type instanceof ParameterizedType applied) {
            Type[] arguments = Arrays.stream(applied.getActualTypeArguments())
                    .map(argument -> resolve(argument, known))
                    .toArray(Type[]::new);
            return new Applied(raw(applied), arguments, applied.getOwnerType());
        }
        if (type instanceof GenericArrayType array) {
            return raw(resolve(array.getGenericComponentType(), known)).arrayType();
        }
        return type;
    }

    /** The class of a type; of a variable that of its first bound. */
    static Class<?> raw(Type type) {
        if (type instanceof Class<?> javaClass) {
            return javaClass;
        }
        if (type instanceof ParameterizedType applied) {
            return (Class<?>) applied.getRawType();
        }
        if (type instanceof GenericArrayType array) {
            return raw(array.getGenericComponentType()).arrayType();
        }
        if (type instanceof TypeVariable<?> variable) {
            return raw(variable.getBounds()[0]);
        }
        return raw(((WildcardType) type).getUpperBounds()[0]);
    }

    /** The class of an argument of a type, where it has one. */
    static Optional<Class<?>> argument(Type type, int place) {
        if (type instanceof ParameterizedType applied && applied.getActualTypeArguments().length > place) {
            return Optional.of(raw(applied.getActualTypeArguments()[place]));
        }
        return Optional.empty();
    }

    /** The boxed class of a primitive, else the class itself. */
    static Class<?> boxed(Class<?> javaClass) {
        return MethodType.methodType(javaClass).wrap().returnType();
    }
}
