package karzhoul.jpa.context;

import jakarta.persistence.PersistenceException;
import java.util.ArrayList;
import java.util.Collection;
import java.util.List;
import java.util.Map;
import karzhoul.jpa.model.Attribute;
import karzhoul.jpa.model.EntityModel;
import karzhoul.jpa.model.Relation;

/**
 * What a proxy had as it was made: its key, and what its class gives a new instance. By that is found what was written
 * to the fields of one that nobody has read, and by no method of it. Each has its own, since a constructor may give
 * each instance something else. Its methods must be asleep, or one that gets a property would read it.
 */
final class Blank {
    /** A getter that fails on a blank instance. */
    private static final Object FAILED = new Object();

    /** A collection that isn't empty at first, or one of a getter that answers copies. */
    private record Begun(Object held, List<Object> content, boolean isCopy) {}

    /** The values of attributes, as a snapshot keeps them, and then what relations held. */
    private final Object[] fields;
    /** The embeddables that were there, by the same places; null where the class has none. */
    private final Object[] holders;

    private Blank(Object[] fields, Object[] holders) {
        this.fields = fields;
        this.holders = holders;
    }

    /** What this new instance has. */
    static Blank of(EntityModel model, Object made) {
        Object[] read = model.fieldsOf(made);
        boolean hasGetters = read == null;
        Object[] fields = hasGetters ? byGetters(model, made) : read;
        int count = model.attributes().size();
        for (int i = 0; i < fields.length; i++) {
            if (fields[i] != null) {
                fields[i] = i < count ? kept(model.attributes().get(i), fields[i])
                    : begun(model.relations().get(i - count), made, fields[i], hasGetters);
            }
        }
        return new Blank(fields, model.hasEmbeddables() ? holders(model, made) : null);
    }

    private static Object[] byGetters(EntityModel model, Object instance) {
        int count = model.attributes().size();
        Object[] got = new Object[count + model.relations().size()];
        for (int i = 0; i < got.length; i++) {
            try {
                got[i] = i < count ? model.attributes().get(i).get(instance) : model.relations().get(i - count).held(instance);
            } catch (RuntimeException e) {
                got[i] = FAILED;
            }
        }
        return got;
    }

    private static Object[] holders(EntityModel model, Object instance) {
        int count = model.attributes().size();
        Object[] holders = new Object[count + model.relations().size()];
        for (int i = 0; i < holders.length; i++) {
            holders[i] = i < count ? model.attributes().get(i).holder(instance)
                : model.relations().get(i - count).holder(instance);
        }
        return holders;
    }

    /**
     * The first path that was written in a proxy which was serialized; null where there is none.
     *
     * @param twin what had the same in its fields as the proxy was made, and shares what can change with it
     */
    static String writtenOf(EntityModel model, Object proxy, Object twin) {
        Object fresh = model.newInstance();
        for (Attribute attribute : model.attributes()) {
            Object holder = attribute.holder(proxy);
            boolean isShared = holder != null && holder == attribute.holder(twin);
            if (!isSame(attribute, attribute.get(proxy), kept(attribute, attribute.get(isShared ? fresh : twin)))) {
                return attribute.path();
            }
        }
        for (Relation relation : model.relations()) {
            Object held = relation.held(proxy);
            boolean isShared = held != null && relation.isMany() && held == relation.held(twin);
            if (isShared ? !content(held).equals(content(relation.held(fresh))) : held != relation.held(twin)) {
                return relation.path();
            }
        }
        return null;
    }

    private static Object kept(Attribute attribute, Object value) {
        try {
            return value == FAILED ? value : Values.kept(attribute, value);
        } catch (Unkept unkept) {
            return value;
        }
    }

    private static Object begun(Relation relation, Object made, Object held, boolean hasGetters) {
        if (held == FAILED || !relation.isMany()) {
            return held;
        }
        boolean isCopy = hasGetters && relation.held(made) != held;
        List<Object> content = content(held);
        return isCopy || !content.isEmpty() ? new Begun(held, content, isCopy) : held;
    }

    private static List<Object> content(Object held) {
        if (held instanceof Map<?, ?> map) {
            return map.isEmpty() ? List.of() : new ArrayList<>(map.entrySet());
        }
        Collection<?> all = (Collection<?>) held;
        return all.isEmpty() ? List.of() : new ArrayList<>(all);
    }

    /**
     * What was written since; null where nothing was.
     *
     * @throws PersistenceException where that can't be told
     */
    Written written(Entry entry) {
        EntityModel model = entry.model();
        Object[] read = model.fieldsOf(entry.instance());
        Object[] now = read == null ? byGetters(model, entry.instance()) : read;
        Object[] holdersNow = holders == null ? null : holders(model, entry.instance());
        int count = model.attributes().size();
        Written written = null;
        for (int i = 0; i < now.length; i++) {
            boolean isReplaced = holders != null && holders[i] != holdersNow[i];
            if (now[i] == fields[i] && !isReplaced && (i < count || now[i] == null) || now[i] == FAILED) {
                continue;
            }
            written = i < count ? written(written, model.attributes().get(i), now[i], i, isReplaced)
                : written(written, entry, model.relations().get(i - count), now[i], i, isReplaced);
        }
        return written;
    }

    private Written written(Written before, Attribute attribute, Object now, int place, boolean isReplaced) {
        if (!isReplaced && isSame(attribute, now, fields[place])) {
            return before;
        }
        Written written = before == null ? new Written() : before;
        written.add(attribute, now);
        return written;
    }

    private Written written(Written before, Entry entry, Relation relation, Object now, int place, boolean isReplaced) {
        Written.Held held = isReplaced ? new Written.Held(relation, now, null) : written(entry, relation, now, fields[place]);
        if (held == null) {
            return before;
        }
        Written written = before == null ? new Written() : before;
        written.add(held);
        return written;
    }

    /** As what they are: a decimal of other places was written too. */
    private static boolean isSame(Attribute attribute, Object now, Object before) {
        if (now == before || now != null && now.equals(before)) {
            return true;
        }
        try {
            return attribute.codec().isMutable() && Values.isSameColumn(Values.column(attribute, now), before);
        } catch (Unkept unkept) {
            return false;
        }
    }

    private static Written.Held written(Entry entry, Relation relation, Object now, Object before) {
        if (before instanceof Begun begun && (begun.isCopy() || now == begun.held())) {
            List<Object> added = now == null ? List.of() : content(now);
            begun.content().forEach(added::remove);
            if (begun.isCopy() && !added.isEmpty()) {
                throw new PersistenceException(entry + "." + relation.path() + " was written before it was read, and its getter"
                    + " answers copies: call a method of it before, so that it is read");
            }
            return added.isEmpty() ? null : new Written.Held(relation, now, added);
        } else if (now != before) {
            return before == FAILED ? null : new Written.Held(relation, now, null);
        }
        List<Object> added = now == null || !relation.isMany() ? List.of() : content(now);
        return added.isEmpty() ? null : new Written.Held(relation, now, added);
    }
}
