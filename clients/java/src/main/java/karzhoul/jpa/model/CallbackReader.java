package karzhoul.jpa.model;

import jakarta.persistence.Entity;
import jakarta.persistence.EntityListeners;
import jakarta.persistence.ExcludeSuperclassListeners;
import jakarta.persistence.MappedSuperclass;
import jakarta.persistence.PersistenceException;
import jakarta.persistence.PostLoad;
import jakarta.persistence.PostPersist;
import jakarta.persistence.PostRemove;
import jakarta.persistence.PostUpdate;
import jakarta.persistence.PrePersist;
import jakarta.persistence.PreRemove;
import jakarta.persistence.PreUpdate;
import java.lang.annotation.Annotation;
import java.lang.invoke.MethodHandle;
import java.lang.invoke.MethodType;
import java.lang.reflect.Method;
import java.lang.reflect.Modifier;
import java.util.ArrayList;
import java.util.EnumMap;
import java.util.HashMap;
import java.util.LinkedHashMap;
import java.util.List;
import java.util.Map;
import java.util.Optional;
import karzhoul.jpa.model.Callbacks.Event;

/** Reads the callbacks of entities and their listeners, of which there is one instance a unit (chapter 3.5). */
final class CallbackReader {
    private static final MethodType RUNS = MethodType.methodType(void.class, Object.class);
    private static final Map<Event, Class<? extends Annotation>> ANNOTATIONS = new EnumMap<>(Map.of(
            Event.PrePersist, PrePersist.class, Event.PostPersist, PostPersist.class, Event.PreRemove, PreRemove.class,
            Event.PostRemove, PostRemove.class, Event.PreUpdate, PreUpdate.class, Event.PostUpdate, PostUpdate.class,
            Event.PostLoad, PostLoad.class));

    /** The callbacks of one entity, each of which takes the instance. */
    private record Found(Map<Event, MethodHandle[]> handles) implements Callbacks {
        @Override
        public boolean hears(Event event) {
            return handles.containsKey(event);
        }

        @Override
        public void run(Event event, Object instance) {
            MethodHandle[] all = handles.get(event);
            for (int i = 0; all != null && i < all.length; i++) {
                try {
                    all[i].invokeExact(instance);
                } catch (RuntimeException | Error raised) {
                    throw raised;
                } catch (Throwable raised) {
                    throw new PersistenceException("a callback raised " + raised, raised);
                }
            }
        }
    }

    private final Faults faults;
    private final Map<Class<?>, Optional<Object>> listeners = new HashMap<>();

    CallbackReader(Faults faults) {
        this.faults = faults;
    }

    Callbacks read(Class<?> entity) {
        List<Class<?>> chain = chain(entity);
        Map<Event, List<MethodHandle>> found = new EnumMap<>(Event.class);
        for (Class<?> listener : listenersOf(chain)) {
            for (Class<?> at : above(listener)) {
                readListener(entity, listener, at, found);
            }
        }
        for (var callback : methods(chain).entrySet()) {
            for (Method method : callback.getValue()) {
                handle(method).ifPresent(handle -> add(found, callback.getKey(), handle.asType(RUNS)));
            }
        }
        Map<Event, MethodHandle[]> handles = new EnumMap<>(Event.class);
        found.forEach((event, all) -> handles.put(event, all.toArray(MethodHandle[]::new)));
        return new Found(handles);
    }

    /** The entity and what is above it, from above, without plain classes. */
    private static List<Class<?>> chain(Class<?> entity) {
        return above(entity).stream()
                .filter(at -> at.isAnnotationPresent(Entity.class) || at.isAnnotationPresent(MappedSuperclass.class))
                .toList();
    }

    private static List<Class<?>> above(Class<?> javaClass) {
        List<Class<?>> all = new ArrayList<>();
        for (Class<?> at = javaClass; at != null && at != Object.class; at = at.getSuperclass()) {
            all.add(0, at);
        }
        return all;
    }

    private static List<Class<?>> listenersOf(List<Class<?>> chain) {
        List<Class<?>> all = new ArrayList<>();
        for (Class<?> at : chain) {
            if (at.isAnnotationPresent(ExcludeSuperclassListeners.class)) {
                all.clear();
            }
            EntityListeners annotation = at.getDeclaredAnnotation(EntityListeners.class);
            if (annotation != null) {
                for (Class<?> listener : annotation.value()) {
                    all.add(listener);
                }
            }
        }
        return all;
    }

    private void readListener(Class<?> entity, Class<?> listener, Class<?> declaring,
            Map<Event, List<MethodHandle>> found) {
        for (var event : eventsOf(declaring).entrySet()) {
            Method method = event.getValue();
            if (!isWell(method, 1)) {
                continue;
            }
            Class<?> takes = method.getParameterTypes()[0];
            if (!takes.isAssignableFrom(entity)) {
                faults.add(declaring, method.getName(), "it takes " + takes.getName() + ", and listens to "
                        + entity.getName() + " too",
                        "Let it take Object, or a class above all that it listens to");
                continue;
            }
            Optional<Object> instance = listeners.computeIfAbsent(listener, this::make);
            instance.flatMap(it -> handle(method).map(handle -> handle.bindTo(it)))
                    .ifPresent(handle -> add(found, event.getKey(), handle.asType(RUNS)));
        }
    }

    private Optional<Object> make(Class<?> listener) {
        try {
            return EntityReader.constructor(faults, listener).map(Accessor::make);
        } catch (RuntimeException raised) {
            faults.add(listener, "its constructor raised " + raised, "Let it make a listener");
            return Optional.empty();
        }
    }

    /** The callback methods by event: those of classes above first, one that is overridden once. */
    private Map<Event, List<Method>> methods(List<Class<?>> chain) {
        Map<Event, List<Method>> all = new EnumMap<>(Event.class);
        for (Class<?> at : chain) {
            for (var event : eventsOf(at).entrySet()) {
                Method method = event.getValue();
                if (isWell(method, 0)) {
                    List<Method> known = all.computeIfAbsent(event.getKey(), none -> new ArrayList<>());
                    known.removeIf(above -> overrides(method, above));
                    known.add(method);
                }
            }
        }
        return all;
    }

    private static boolean overrides(Method method, Method above) {
        boolean isSeen = !Modifier.isPrivate(above.getModifiers())
                && (Modifier.isPublic(above.getModifiers()) || Modifier.isProtected(above.getModifiers())
                || above.getDeclaringClass().getPackage() == method.getDeclaringClass().getPackage());
        return isSeen && above.getName().equals(method.getName());
    }

    /** The method of each event that a class declares; a second one of the same event is told. */
    private Map<Event, Method> eventsOf(Class<?> javaClass) {
        Map<Event, Method> all = new LinkedHashMap<>();
        for (Event event : Event.values()) {
            for (Method method : javaClass.getDeclaredMethods()) {
                if (!method.isSynthetic() && method.isAnnotationPresent(ANNOTATIONS.get(event))) {
                    Method other = all.putIfAbsent(event, method);
                    if (other != null) {
                        faults.add(javaClass, other.getName() + " and " + method.getName() + " are both of @" + event,
                                "Leave one of them");
                    }
                }
            }
        }
        return all;
    }

    private boolean isWell(Method method, int parameters) {
        boolean isWell = method.getParameterCount() == parameters && method.getReturnType() == void.class
                && !Modifier.isStatic(method.getModifiers());
        if (!isWell) {
            faults.add(method.getDeclaringClass(), method.getName(), "it is no callback",
                    parameters == 0 ? "Let it be void, without parameters, and not static"
                            : "Let it be void, take the entity, and not be static");
        }
        return isWell;
    }

    private Optional<MethodHandle> handle(Method method) {
        try {
            return Optional.of(Accessor.lookupIn(method.getDeclaringClass()).unreflect(method));
        } catch (IllegalAccessException closed) {
            faults.add(method.getDeclaringClass(), "its module doesn't open its package",
                    Members.openWords(method.getDeclaringClass()));
            return Optional.empty();
        }
    }

    private static void add(Map<Event, List<MethodHandle>> found, Event event, MethodHandle handle) {
        found.computeIfAbsent(event, none -> new ArrayList<>()).add(handle);
    }
}
