package karzhoul.jpa.context;

import static net.bytebuddy.matcher.ElementMatchers.isFinalizer;
import static net.bytebuddy.matcher.ElementMatchers.isVirtual;
import static net.bytebuddy.matcher.ElementMatchers.named;
import static net.bytebuddy.matcher.ElementMatchers.not;
import static net.bytebuddy.matcher.ElementMatchers.takesArguments;

import jakarta.persistence.PersistenceException;
import java.io.Serializable;
import java.lang.invoke.MethodHandle;
import java.lang.invoke.MethodHandles;
import java.lang.invoke.MethodType;
import java.lang.reflect.Field;
import java.lang.reflect.Method;
import java.lang.reflect.Modifier;
import java.util.List;
import java.util.Optional;
import java.util.function.Supplier;
import karzhoul.jpa.model.Attribute;
import karzhoul.jpa.model.EntityModel;
import net.bytebuddy.ByteBuddy;
import net.bytebuddy.description.modifier.FieldManifestation;
import net.bytebuddy.description.modifier.FieldPersistence;
import net.bytebuddy.description.modifier.Visibility;
import net.bytebuddy.dynamic.DynamicType;
import net.bytebuddy.dynamic.loading.ClassLoadingStrategy;
import net.bytebuddy.implementation.FieldAccessor;
import net.bytebuddy.implementation.MethodCall;
import net.bytebuddy.implementation.SuperMethodCall;

/**
 * Instances whose values are read at their first call. Each is the entity itself, an instance of a class below it that
 * is made once: so there is never a second instance of an identity, and {@code ==} holds. An entity that can't have
 * such a class, as a final one, is read at once. Safe for all threads.
 */
public final class Proxies {
    private static final String SUFFIX = "$Karzhoul";
    private static final String ENTRY = "karzhoul$entry";

    /** One for each class and its loader. */
    private static final ClassValue<Maker> MAKERS = new ClassValue<>() {
        @Override
        protected Maker computeValue(Class<?> entity) {
            return new Maker(entity);
        }
    };

    private Proxies() {}

    /** Makes instances of an entity's proxy class, which the first thread that asks makes, and once. */
    private static final class Maker {
        private final Class<?> entity;
        private volatile Optional<MethodHandle> made;

        Maker(Class<?> entity) {
            this.entity = entity;
        }

        /** Empty where the entity can't have such a class. */
        Optional<MethodHandle> made() {
            Optional<MethodHandle> known = made;
            return known != null ? known : madeNow();
        }

        private synchronized Optional<MethodHandle> madeNow() {
            if (made == null) {
                made = maker(entity);
            }
            return made;
        }
    }

    /** Whether this entity is one whose instances may be proxies: its class can be known by its key alone. */
    static boolean isPossible(EntityModel model) {
        return model.subEntities().isEmpty() && !model.isAbstract() && canHave(model.javaClass());
    }

    /** Whether a class can have a class of proxies below it. */
    static boolean canHave(Class<?> entity) {
        return MAKERS.get(entity).made().isPresent();
    }

    /** A proxy of this entry, whose key is set: an {@code equals} that reads the other one's field finds it there. */
    static Object make(Entry entry) {
        Object made = make(entry.model().javaClass());
        List<Attribute> parts = entry.model().key().parts();
        for (int i = 0; i < parts.size(); i++) {
            parts.get(i).set(made, parts.get(i).codec().toAttribute(entry.key().get(i)));
        }
        entry.blank(Blank.of(entry.model(), made));
        ((Proxied) made).karzhoul$entry(entry);     // only now, so that a setter and a getter read nothing
        return made;
    }

    /** Does something while the methods of a proxy read nothing. */
    static <T> T asleep(Object proxy, Supplier<T> done) {
        Proxied proxied = (Proxied) proxy;
        Object known = proxied.karzhoul$entry();
        proxied.karzhoul$entry(null);
        try {
            return done.get();
        } finally {
            proxied.karzhoul$entry(known);
        }
    }

    /** A detached proxy of what has this key. */
    static Object ofKey(Plain.Key key) {
        Object made = make(key.entity());
        ((Proxied) made).karzhoul$entry(key);
        return made;
    }

    /** An instance of the same class with the same in its fields, as far as they can be set. */
    static Object twin(Object proxy) {
        Object twin = make(proxy.getClass().getSuperclass());
        for (Class<?> at = proxy.getClass().getSuperclass(); at != Object.class; at = at.getSuperclass()) {
            for (Field field : at.getDeclaredFields()) {
                if (!Modifier.isStatic(field.getModifiers()) && !Modifier.isFinal(field.getModifiers())) {
                    copy(field, proxy, twin);
                }
            }
        }
        return twin;
    }

    private static void copy(Field field, Object from, Object to) {
        try {
            MethodHandles.Lookup lookup = MethodHandles.privateLookupIn(field.getDeclaringClass(), MethodHandles.lookup());
            lookup.unreflectSetter(field).invoke(to, lookup.unreflectGetter(field).invoke(from));
        } catch (Throwable e) {
            System.getLogger("karzhoul").log(System.Logger.Level.DEBUG, field + " can't be copied", e);
        }
    }

    /** What the door knows of a proxy: an {@link Entry} or a {@link Plain.Key}; null of any other instance. */
    static Object known(Object instance) {
        return instance instanceof Proxied proxied ? proxied.karzhoul$entry() : null;
    }

    private static Object make(Class<?> entity) {
        MethodHandle maker = MAKERS.get(entity).made().orElseThrow();
        try {
            return maker.invoke();
        } catch (RuntimeException | Error e) {
            throw e;
        } catch (Throwable e) {
            throw new IllegalStateException(e);
        }
    }

    /** What is called before each method of a proxy. */
    public static void fill(Object known) {
        if (known instanceof Entry entry) {
            if (entry.isHollow()) {
                entry.fill();
            }
        } else if (known instanceof Plain.Key key) {
            throw new PersistenceException(key.entity().getSimpleName() + " " + key.parts()
                + " wasn't read before it was serialized: merge it, or find it again");
        }
    }

    /** What is serialized in a proxy's place. */
    public static Object replacement(Object proxy, Object known) {
        return Plain.of(proxy, known);
    }

    private static Optional<MethodHandle> maker(Class<?> entity) {
        if (Modifier.isFinal(entity.getModifiers()) || Modifier.isAbstract(entity.getModifiers())) {
            return Optional.empty();
        }
        try {
            MethodHandles.Lookup lookup = MethodHandles.privateLookupIn(entity, MethodHandles.lookup());
            DynamicType.Builder<?> builder = described(entity);
            Class<?> made = builder.make()
                .load(entity.getClassLoader(), ClassLoadingStrategy.UsingLookup.of(lookup)).getLoaded();
            MethodHandles.Lookup inside = MethodHandles.privateLookupIn(made, MethodHandles.lookup());
            return Optional.of(inside.findConstructor(made, MethodType.methodType(void.class)));
        } catch (ReflectiveOperationException | IllegalArgumentException | IllegalStateException | LinkageError e) {
            System.getLogger("karzhoul").log(System.Logger.Level.INFO,
                entity.getName() + " can't have a class of proxies below it: what leads to it is read at once", e);
            return Optional.empty();
        }
    }

    private static DynamicType.Builder<?> described(Class<?> entity) throws NoSuchMethodException {
        Method fill = Proxies.class.getMethod("fill", Object.class);
        DynamicType.Builder<?> builder = new ByteBuddy().subclass(entity)
            .name(entity.getName() + SUFFIX)
            .defineField(ENTRY, Object.class, Visibility.PRIVATE,
                FieldPersistence.TRANSIENT, FieldManifestation.PLAIN)
            .method(isVirtual().and(not(isFinalizer())).and(not(named("writeReplace").and(takesArguments(0)))))
            .intercept(MethodCall.invoke(fill).withField(ENTRY).andThen(SuperMethodCall.INSTANCE))
            .implement(Proxied.class).intercept(FieldAccessor.ofField(ENTRY));
        if (!Serializable.class.isAssignableFrom(entity)) {
            return builder;
        }
        Method replacement = Proxies.class.getMethod("replacement", Object.class, Object.class);
        return builder.defineMethod("writeReplace", Object.class, Visibility.PRIVATE)
            .intercept(MethodCall.invoke(replacement).withThis().withField(ENTRY));
    }
}
