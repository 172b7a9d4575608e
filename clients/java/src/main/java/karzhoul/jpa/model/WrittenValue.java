package karzhoul.jpa.model;

import jakarta.persistence.PersistenceException;
import java.lang.invoke.MethodHandles;
import java.lang.invoke.MethodHandles.Lookup;
import java.lang.invoke.MethodType;
import java.util.List;

/** A value as a property of a unit writes it. */
final class WrittenValue {
    private static final List<String> FACTORIES = List.of("valueOf", "parse", "fromString");

    private WrittenValue() {}

    /**
     * The value of a text: an enum's constant by its name, else what the type's valueOf, parse or constructor makes.
     *
     * @throws PersistenceException where it is none of this type
     */
    static Object of(Class<?> type, String text) {
        if (type == String.class) {
            return text;
        } else if (type == Character.class && text.length() == 1) {
            return text.charAt(0);
        } else if (type == Boolean.class && (text.equals("true") || text.equals("false"))) {
            return text.equals("true");
        } else if (type == Boolean.class || type == Character.class) {
            throw none(type, text, null);
        } else if (type.isEnum()) {
            return constant(type, text);
        }
        return made(type, text);
    }

    private static Object constant(Class<?> type, String text) {
        for (Object constant : type.getEnumConstants()) {
            if (((Enum<?>) constant).name().equals(text)) {
                return constant;
            }
        }
        throw none(type, text, null);
    }

    private static Object made(Class<?> type, String text) {
        Lookup lookup = MethodHandles.publicLookup();
        for (String factory : FACTORIES) {
            for (Class<?> given : List.of(String.class, CharSequence.class)) {
                try {
                    return lookup.findStatic(type, factory, MethodType.methodType(type, given)).invoke(text);
                } catch (NoSuchMethodException | IllegalAccessException another) {
                    continue;
                } catch (Throwable wrong) {
                    throw none(type, text, wrong);
                }
            }
        }
        try {
            return lookup.findConstructor(type, MethodType.methodType(void.class, String.class)).invoke(text);
        } catch (Throwable wrong) {
            throw none(type, text, wrong);
        }
    }

    private static PersistenceException none(Class<?> type, String text, Throwable why) {
        return new PersistenceException("karzhoul.defaults: " + text + " is no " + type.getName(), why);
    }
}
