package karzhoul.jpa.query;

import jakarta.persistence.PersistenceException;
import java.lang.invoke.MethodHandle;
import java.lang.invoke.MethodHandles;
import java.lang.reflect.Constructor;
import java.lang.reflect.InaccessibleObjectException;
import java.util.Arrays;
import java.util.List;
import karzhoul.jpa.model.UnitModel;

/** NEW of a class (chapter 4.8.2). */
record Constructing(Class<?> type, MethodHandle constructor) {
    /**
     * The constructor that takes values of the arguments' types.
     *
     * @throws QueryFault where there is no such class or constructor
     */
    static Constructing of(UnitModel unit, String text, Tree.Construct construct) {
        Class<?> type = Classes.find(unit, construct.className());
        if (type == null) {
            throw QueryFault.at(text, construct.at(), "there is no class " + construct.className());
        }
        List<Type> given = construct.arguments().stream().map(Types::of).toList();
        Constructor<?> best = null;
        int most = -1;
        for (Constructor<?> constructor : type.getDeclaredConstructors()) {
            int fit = fit(constructor.getParameterTypes(), given);
            if (fit > most) {
                most = fit;
                best = constructor;
            }
        }
        if (best == null) {
            throw QueryFault.at(text, construct.at(), type.getName() + " has no constructor of ("
                    + String.join(", ", given.stream().map(one -> one.java().getSimpleName()).toList()) + ")");
        }
        return new Constructing(type, handle(text, construct.at(), best));
    }

    private static MethodHandle handle(String text, int at, Constructor<?> constructor) {
        try {
            constructor.setAccessible(true);
            MethodHandle handle = MethodHandles.lookup().unreflectConstructor(constructor);
            return handle.asSpreader(Object[].class, constructor.getParameterCount());
        } catch (IllegalAccessException | InaccessibleObjectException e) {
            throw QueryFault.at(text, at, "the constructor of " + constructor.getDeclaringClass().getName()
                    + " can't be called: " + e.getMessage());
        }
    }

    /** How many parameters are of the very types; -1 where one can't take its value. */
    private static int fit(Class<?>[] parameters, List<Type> given) {
        if (parameters.length != given.size()) {
            return -1;
        }
        int same = 0;
        for (int place = 0; place < parameters.length; place++) {
            Class<?> asked = Classes.boxed(parameters[place]);
            Class<?> has = given.get(place).java();
            if (asked == has) {
                same++;
            } else if (!asked.isAssignableFrom(has) && has != Object.class
                    && !(parameters[place].isPrimitive() && widens(has, parameters[place]))) {
                return -1;
            }
        }
        return same;
    }

    private static boolean widens(Class<?> from, Class<?> to) {
        List<Class<?>> order = List.of(Byte.class, Short.class, Integer.class, Long.class, Float.class, Double.class);
        int place = order.indexOf(from);
        return place >= 0 && order.indexOf(Classes.boxed(to)) > place;
    }

    /** An object of these arguments. */
    Object make(Object[] arguments) {
        try {
            return constructor.invoke(arguments);
        } catch (NullPointerException | ClassCastException e) {
            throw new PersistenceException("the constructor of " + type.getName() + " takes no "
                    + Arrays.toString(arguments), e);
        } catch (RuntimeException | Error e) {
            throw e;
        } catch (Throwable e) {
            throw new PersistenceException("the constructor of " + type.getName() + " raised " + e, e);
        }
    }
}
