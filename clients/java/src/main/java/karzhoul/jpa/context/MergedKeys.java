package karzhoul.jpa.context;

import java.util.ArrayList;
import java.util.HashMap;
import java.util.LinkedHashSet;
import java.util.List;
import java.util.Map;
import java.util.Set;
import java.util.function.Function;
import karzhoul.jpa.engine.Lines;
import karzhoul.jpa.model.Attribute;
import karzhoul.jpa.model.EntityModel;
import karzhoul.jpa.model.KeyModel;

/**
 * The keys by which a merge knows what it copies. One that is derived is that of another entity (chapter 2.4.1), which
 * may be new too: then that one gets its key first.
 */
final class MergedKeys {
    private final Context context;
    private final Map<Entry, Object> sources;
    private final Map<Entry, Entry> images;
    private final Map<Object, Entry> imagesByInstance;
    private final Map<Entry, List<Object>> given = new HashMap<>();
    /** The images that the program persisted before the merge, since others are to have their keys. */
    private final Set<Entry> ahead = new LinkedHashSet<>();

    /** Over what a {@link Merge} has, which it goes on to fill. */
    MergedKeys(Context context, Map<Entry, Object> sources, Map<Entry, Entry> images, Map<Object, Entry> imagesByInstance) {
        this.context = context;
        this.sources = sources;
        this.images = images;
        this.imagesByInstance = imagesByInstance;
    }

    /** The key of an instance as it is kept; null where it is still to be given, since that of before was rolled back too. */
    List<Object> of(EntityModel model, Object instance) {
        return of(model, instance, this::known);
    }

    private List<Object> known(Object from) {
        Entry entry = context.entryOf(from);
        return entry != null && entry.key() != null ? entry.key() : of(context.modelOf(from), from);
    }

    private List<Object> of(EntityModel model, Object instance, Function<Object, List<Object>> keyOf) {
        KeyModel key = model.key();
        if (key.generation() == KeyModel.Generation.COUNTER && context.isNeverStored(instance)) {
            return null;
        } else if (key.derived().isEmpty() || Proxies.known(instance) != null) {
            return Targets.keyOf(model, instance);
        }
        List<Object> columns = new ArrayList<>();
        key.parts().forEach(part -> columns.add(Values.column(part, part.get(instance))));
        for (KeyModel.Derived derived : key.derived()) {
            Object from = derived.from().get(instance);
            if (from != null && isDerivedAnew(model, instance, derived)) {
                List<Object> theirs = keyOf.apply(from);
                for (int i = 0; i < derived.parts().size(); i++) {
                    columns.set(key.parts().indexOf(derived.parts().get(i)), theirs == null ? null : theirs.get(i));
                }
            }
        }
        return columns.contains(null) ? null : List.copyOf(columns);
    }

    /** Whether these parts are those of the other: none was set, they are read off it, or what they were was rolled back. */
    private boolean isDerivedAnew(EntityModel model, Object instance, KeyModel.Derived derived) {
        Attribute part = derived.parts().get(0);
        Object column = Values.column(part, part.get(instance));
        return column == null || column.equals(Values.column(part, part.get(model.newInstance())))
            || part.path().startsWith(derived.from().path() + ".")
            || context.isNeverStored(instance) || context.isNeverStored(derived.from().get(instance));
    }

    /** Gives the new ones whose keys are derived from those of new ones their keys. */
    void give() {
        for (Map.Entry<Entry, Object> each : List.copyOf(sources.entrySet())) {
            Entry source = each.getKey();
            if (source.key() == null && !source.model().key().derived().isEmpty()) {
                keyFor(each.getValue());
            }
        }
    }

    private List<Object> keyFor(Object instance) {
        Entry image = imagesByInstance.get(instance);
        Entry entry = image != null ? image : context.entryOf(instance);
        if (entry != null && entry.key() != null) {
            return entry.key();
        } else if (entry == null || !sources.containsKey(entry)) {
            return of(context.modelOf(instance), instance, this::keyFor);
        } else if (!given.containsKey(entry)) {
            given.put(entry, newKey(entry));
        }
        return given.get(entry);
    }

    private List<Object> newKey(Entry source) {
        EntityModel model = source.model();
        if (model.key().generation() == KeyModel.Generation.COUNTER) {
            return persistAhead(source).key();
        }
        return Keys.isGiven(model) ? List.of(new Keys(context).next(model)) : of(model, source.instance(), this::keyFor);
    }

    /** Has the program persist the image of a new one alone, which gives it its key. */
    Entry persistAhead(Entry source) {
        EntityModel model = source.model();
        Object copy = Merge.copy(model, source.instance());
        Attribute part = model.key().parts().get(0);
        part.set(copy, part.get(model.newInstance()));
        Entry image = new Entry(model, context, Entry.State.NEW);
        image.instance(copy);
        image.number(context.newNumber(model));
        context.identities().put(image);
        ahead.add(image);
        context.push().alone(image);
        images.put(source, image);
        imagesByInstance.put(sources.get(source), image);
        source.instance(copy);
        source.key(image.key());
        return image;
    }

    /** Tells the program the key of a new one, where it isn't that of its instance. */
    void tell(Entry source) {
        EntityModel model = source.model();
        List<Object> key = given.getOrDefault(source, source.key());
        if (key == null || model.key().derived().isEmpty() && !given.containsKey(source)) {
            return;
        }
        for (int i = 0; i < key.size(); i++) {
            context.queue().set(source.number(), model.key().parts().get(i).member(), key.get(i)).about(source);
        }
    }

    /** Whether a new one has got its key here. */
    boolean hasGiven(Entry source) {
        return given.get(source) != null;
    }

    /** The images that are managed already, and of no row. */
    Set<Entry> ahead() {
        return ahead;
    }

    /** What was refused leaves nothing: the images are let go. */
    void giveUp() {
        Lines queue = context.queue();
        for (Entry image : ahead) {
            queue.detach(context.manager(), image.number());
            context.forget(image);
        }
    }
}
