package karzhoul.jpa.model;

import jakarta.persistence.Converter;
import jakarta.persistence.DiscriminatorValue;
import jakarta.persistence.Embeddable;
import jakarta.persistence.Entity;
import jakarta.persistence.MappedSuperclass;
import jakarta.persistence.Table;
import java.util.ArrayList;
import java.util.Collection;
import java.util.Comparator;
import java.util.LinkedHashMap;
import java.util.LinkedHashSet;
import java.util.List;
import java.util.Map;
import java.util.Set;
import java.util.stream.Stream;

/** Reads annotated classes as the entities of a unit (chapters 2, 3.5, 3.8 and 11). */
public final class Reader {
    private final Faults faults = new Faults();
    private final Converters converters = new Converters(faults);
    private final Codecs codecs = new Codecs(faults, converters);
    private final Map<Class<?>, PlainEntity> entities = new LinkedHashMap<>();
    private final Map<Class<?>, KeyReader.Draft> roots = new LinkedHashMap<>();
    private final Names entityNames = new Names();
    private final Generators generators = new Generators(faults, entityNames);
    private final List<PlainEntity> hidden = new ArrayList<>();

    private Reader() {
        entityNames.give(StoredDescription.ENTITY);
    }

    /**
     * The unit of these classes, which may stand in any order.
     *
     * @param unit its name, for the words of a refusal
     * @throws RefusedUnit with all that is wrong with the classes
     */
    public static UnitModel read(String unit, Collection<Class<?>> classes) {
        Reader reader = new Reader();
        UnitModel read = reader.read(new LinkedHashSet<>(classes));
        if (read == null) {
            throw new RefusedUnit(unit, reader.faults.found());
        }
        return read;
    }

    private UnitModel read(Set<Class<?>> classes) {
        for (Class<?> javaClass : classes) {
            generators.define(javaClass);
            if (javaClass.isAnnotationPresent(Converter.class)) {
                converters.add(javaClass);
            } else if (javaClass.isAnnotationPresent(Entity.class)) {
                Classes.checkEntity(faults, javaClass);
            } else if (!javaClass.isAnnotationPresent(Embeddable.class)
                    && !javaClass.isAnnotationPresent(MappedSuperclass.class)) {
                Classes.tellUnknown(faults, javaClass);
            }
        }
        classes.stream()
                .filter(it -> it.isAnnotationPresent(Entity.class) && Classes.isClass(it))
                .sorted(Comparator.comparingInt(Classes::depth))
                .forEach(this::readEntity);
        new KeyReader(faults, codecs, generators, roots).readAll();
        List<PlainEntity> visible = List.copyOf(entities.values());
        List<PlainEntity> all = Stream.concat(visible.stream(), hidden.stream()).toList();
        new Joiner(faults, entities).join(all);
        List<Unique> uniques = new UniqueReader(faults, entityNames).read(all);
        List<Indexed> indexes = new IndexReader(faults).read(all);
        List<PlainEntity> stored = Stream.of(all, uniques.stream().map(Unique::keys).toList(), generators.sequences(),
                new OrderReader(faults, entityNames).read(all)).flatMap(List::stream).toList();
        new NumberCheck(faults).check(stored);
        Map<String, UnitModel.Named> queries = new NamedQueryReader(faults).read(classes);
        CallbackReader callbacks = new CallbackReader(faults);
        all.forEach(it -> it.tells(callbacks.read(it.javaClass())));
        if (!faults.found().isEmpty()) {
            return null;
        }
        stored.forEach(PlainEntity::order);
        return new PlainUnit(visible, hidden, uniques, indexes, queries, stored);
    }

    private void readEntity(Class<?> javaClass) {
        PlainEntity above = null;
        for (Class<?> at = javaClass.getSuperclass(); at != null && above == null; at = at.getSuperclass()) {
            above = entities.get(at);
            if (above == null && at.isAnnotationPresent(Entity.class)) {
                faults.add(javaClass, "the class above it, " + at.getName()
                        + ", is an entity, and isn't among those of the unit",
                        "Add it as <class> to persistence.xml");
                return;
            }
        }
        String said = javaClass.getAnnotation(Entity.class).name();
        String name = said.isEmpty() ? javaClass.getSimpleName() : said;
        String table = above == null ? table(javaClass, name) : above.table();
        DiscriminatorValue value = javaClass.getAnnotation(DiscriminatorValue.class);
        String discriminator = value != null ? value.value() : name;
        PlainEntity entity = new PlainEntity(javaClass, name, entityNames.give(name), above, table, discriminator);
        entities.put(javaClass, entity);
        if (!entity.isAbstract()) {
            EntityReader.constructor(faults, javaClass).ifPresent(entity::isMadeBy);
        }
        // Names are those of a whole hierarchy: a class below has those of the classes above.
        KeyReader.Draft root = above == null ? null : roots.get(entity.root().javaClass());
        Names names = root == null ? new Names() : root.names();
        EntityReader reader = new EntityReader(faults, codecs, entity, names, entityNames);
        reader.read();
        hidden.addAll(reader.hidden());
        if (above == null) {
            roots.put(javaClass, new KeyReader.Draft(entity, reader, names));
        } else if (!reader.keyMembers().isEmpty()) {
            faults.add(reader.keyMembers().get(0), "the key belongs into the class at the top of the hierarchy",
                    "Leave out @Id here");
        }
    }

    private static String table(Class<?> javaClass, String name) {
        Table table = javaClass.getAnnotation(Table.class);
        if (table == null) {
            return name;
        }
        return RelationReader.qualified(table.catalog(), table.schema(), table.name().isEmpty() ? name : table.name());
    }
}
