package karzhoul.jpa.model;

import jakarta.persistence.AttributeOverride;
import jakarta.persistence.Column;
import jakarta.persistence.Embeddable;
import jakarta.persistence.EmbeddedId;
import jakarta.persistence.GeneratedValue;
import jakarta.persistence.GenerationType;
import jakarta.persistence.Id;
import jakarta.persistence.IdClass;
import jakarta.persistence.MapsId;
import java.lang.invoke.MethodHandle;
import java.math.BigInteger;
import java.util.ArrayList;
import java.util.HashSet;
import java.util.List;
import java.util.Map;
import java.util.Optional;
import java.util.Set;
import java.util.UUID;
import karzhoul.jpa.model.KeyModel.Generation;

/** Reads the keys of entities, which may be made of the keys of others (chapters 2.4 and 11.1.21 to 11.1.23). */
final class KeyReader {
    private static final int MOST_PARTS = 4;

    /**
     * A part of a key as it is found.
     *
     * @param path its path from the entity
     * @param leaf its name within the key
     * @param inHolder where it stands in the embedded id or the id class; null where there is none
     * @param column the name by which relations refer to it
     * @param isUnique whether its column is unique by itself
     * @param width what its column has room for
     */
    private record Part(String path, String leaf, Codec codec, Place where, Place inHolder, String column,
            boolean isUnique, Width width) {}

    /** What an entity's reader has left for its key. */
    record Draft(PlainEntity entity, EntityReader reader, Names names) {}

    private final Faults faults;
    private final Codecs codecs;
    private final Generators generators;
    private final Map<Class<?>, Draft> roots;
    private final Set<Class<?>> begun = new HashSet<>();
    private final Set<Class<?>> ended = new HashSet<>();

    /** @param roots the entities without one above, by their classes */
    KeyReader(Faults faults, Codecs codecs, Generators generators, Map<Class<?>, Draft> roots) {
        this.faults = faults;
        this.codecs = codecs;
        this.generators = generators;
        this.roots = roots;
    }

    void readAll() {
        roots.values().forEach(this::read);
    }

    /** Reads a key unless it was read; those of the entities on which it hangs first. */
    private void read(Draft draft) {
        PlainEntity entity = draft.entity();
        if (!begun.add(entity.javaClass())) {
            if (entity.plainKey() == null && !ended.contains(entity.javaClass())) {
                faults.add(entity.javaClass(), "its key can't be read, or is made of itself",
                        "Give it an @Id of its own");
            }
            return;
        }
        List<Member> members = draft.reader().keyMembers();
        if (members.isEmpty()) {
            faults.add(entity.javaClass(), "it has no key", "Annotate a field or a getter with @Id or @EmbeddedId");
        } else if (members.size() == 1 && members.get(0).has(EmbeddedId.class)) {
            readEmbedded(draft, members.get(0));
        } else if (members.stream().anyMatch(member -> member.has(EmbeddedId.class))) {
            faults.add(entity.javaClass(), "it has @EmbeddedId and another key", "Leave one of them out");
        } else {
            readPlain(draft, members);
        }
        ended.add(entity.javaClass());
        if (entity.plainKey() != null) {
            mapIds(draft);
        }
    }

    private void readEmbedded(Draft draft, Member member) {
        Optional<MethodHandle> constructor = EntityReader.embeddable(faults, member);
        if (member.has(GeneratedValue.class)) {
            faults.add(member, "an embedded id isn't generated", "Leave out @GeneratedValue, or use @Id");
        }
        if (constructor.isEmpty()) {
            return;
        }
        List<Part> parts = new ArrayList<>();
        int told = faults.found().size();
        collect(draft, member, Way.to(member), null, constructor.get(), "", parts);
        if (faults.found().size() > told) {
            return;
        }
        PlainKey.Holder holder = holder(member.javaType(), constructor.get(), parts);
        finish(draft, parts, Generation.ASSIGNED, holder, member, false);
    }

    private void collect(Draft draft, Member holder, Way way, Way inHolder, MethodHandle constructor, String leaf,
            List<Part> parts) {
        String before = leaf.isEmpty() ? "" : leaf + ".";
        for (Member part : draft.reader().embeddedMembers(holder.javaType(), holder)) {
            Way partWay = way.then(constructor, part);
            Way partInHolder = inHolder == null ? Way.to(part) : inHolder.then(constructor, part);
            if (part.javaType().isAnnotationPresent(Embeddable.class)) {
                Optional<MethodHandle> inner = EntityReader.embeddable(faults, part);
                inner.ifPresent(it -> collect(draft, part, partWay, partInHolder, it, before + part.name(), parts));
            } else if (RelationReader.isRelation(part)) {
                faults.add(part, "an embedded id has no relations",
                        "Keep the key's value, and map the relation with @MapsId");
            } else {
                Scope scope = new Scope(null, "", holder.annotated());
                codec(part, scope).ifPresent(codec -> parts.add(new Part(before + part.name(), before + part.name(),
                        codec,
                        partWay, partInHolder, columnOf(part, scope), isUnique(part, scope), width(part, scope, codec))));
            }
        }
    }

    private Optional<Codec> codec(Member member, Scope scope) {
        if (member.has(GeneratedValue.class) && !member.has(Id.class)) {
            faults.add(member, "a part of a key isn't generated", "Leave out @GeneratedValue");
        }
        Optional<Column> column = scope.column(member.name()).or(() -> member.find(Column.class));
        Optional<Codec> codec = codecs.ofKey(member, scope, member.name(), column);
        if (codec.isPresent() && codec.get().meaning().equals("serialized")) {
            faults.add(member, member.javaType().getName() + " is no type of a key",
                    "Use a number, a String, a date, a UUID or an enum");
            return Optional.empty();
        }
        return codec;
    }

    private static String columnOf(Member member, Scope scope) {
        return scope.column(member.name()).or(() -> member.find(Column.class)).map(Column::name)
                .filter(it -> !it.isEmpty()).orElse(member.name());
    }

    private static boolean isUnique(Member member, Scope scope) {
        return scope.column(member.name()).or(() -> member.find(Column.class)).filter(Column::unique).isPresent();
    }

    private static Width width(Member member, Scope scope, Codec codec) {
        return Width.of(member, codec, scope.column(member.name()).or(() -> member.find(Column.class)));
    }

    private void readPlain(Draft draft, List<Member> members) {
        Optional<Class<?>> idClass = idClass(draft.entity().javaClass());
        if (members.size() > 1 && idClass.isEmpty()) {
            faults.add(draft.entity().javaClass(), "it has " + members.size()
                    + " members with @Id, and no class for its keys",
                    "Add @IdClass, or use @EmbeddedId");
            return;
        }
        List<Part> parts = new ArrayList<>();
        Optional<MethodHandle> constructor = idClass.flatMap(it -> EntityReader.constructor(faults, it));
        for (Member member : members) {
            Optional<Place> inHolder = idClass.flatMap(it -> memberOf(it, member));
            if (RelationReader.isRelation(member)) {
                collectDerived(draft, member, inHolder.orElse(null), parts);
            } else if (idClass.isEmpty() || inHolder.isPresent()) {
                Scope scope = new Scope(null, "", member.annotated());
                codec(member, scope).ifPresent(codec -> parts.add(new Part(member.name(), member.name(), codec,
                        Way.to(member),
                        inHolder.orElse(null), columnOf(member, scope), isUnique(member, scope),
                        width(member, scope, codec))));
            }
        }
        if (parts.isEmpty()) {
            return;
        }
        Member only = members.get(0);
        Generation generation = generation(draft, members);
        PlainKey.Holder holder = constructor.isPresent() ? holder(idClass.orElseThrow(), constructor.get(), parts)
                : RelationReader.isRelation(only) ? derivedHolder(draft, only) : null;
        boolean isZeroNone = generation == Generation.COUNTER && only.javaType().isPrimitive();
        finish(draft, parts, generation, holder, null, isZeroNone);
    }

    private static Optional<Class<?>> idClass(Class<?> entity) {
        for (Class<?> at = entity; at != null; at = at.getSuperclass()) {
            IdClass annotation = at.getAnnotation(IdClass.class);
            if (annotation != null) {
                return Optional.of(annotation.value());
            }
        }
        return Optional.empty();
    }

    /** Where an id class has the member of this name: a field, or else a property. */
    private Optional<Place> memberOf(Class<?> idClass, Member member) {
        Optional<Member> found = NamedMembers.find(idClass, member.name());
        if (found.isEmpty()) {
            faults.add(idClass, "it has no member " + member.name() + ", as the key of " + member.declaring().getName()
                    + " has",
                    "Add one of the same type");
        } else if (!RelationReader.isRelation(member)
                && Types.boxed(found.get().javaType()) != Types.boxed(member.javaType())) {
            faults.add(idClass, member.name(), "it is of " + found.get().javaType().getName() + ", and in "
                    + member.declaring().getName() + " of " + member.javaType().getName(), "Give both the same type");
            return Optional.empty();
        }
        return found.map(Way::to);
    }

    /** The parts of a key that is the key of another entity (chapter 2.4.1). */
    private void collectDerived(Draft draft, Member member, Place inHolder, List<Part> parts) {
        Optional<PlainKey> key = targetKey(draft, member);
        Optional<PlainRelation> relation = draft.entity().relation(member.name());
        if (key.isEmpty() || relation.isEmpty()) {
            return;
        }
        PlainKey.Holder holder = key.get().holder();
        List<Attribute> theirs = key.get().parts();
        for (int i = 0; i < theirs.size(); i++) {
            Place there = holder == null ? null : holder.places().get(i);
            Place part = inHolder != null ? inHolder : there;
            if (inHolder != null && there != null) {
                part = new Through(inHolder, holder.constructor(), there);
            }
            String path = member.name() + "." + theirs.get(i).path();
            parts.add(new Part(path, path, theirs.get(i).codec(), new KeyOfTarget(relation.get(), theirs.get(i)), part,
                    member.name(), false, Width.ANY));
        }
    }

    private PlainKey.Holder derivedHolder(Draft draft, Member member) {
        return targetKey(draft, member).map(PlainKey::holder).orElse(null);
    }

    private Optional<PlainKey> targetKey(Draft draft, Member member) {
        Optional<PlainRelation> relation = draft.entity().relation(member.name());
        if (relation.isEmpty() || relation.get().isMany() || !relation.get().isOwner()) {
            faults.add(member, "a relation in a key leads to one entity, and is owned",
                    "Use @ManyToOne or @OneToOne without mappedBy");
            return Optional.empty();
        }
        Class<?> target = relation.get().said().target();
        Draft other = null;
        for (Class<?> at = target; at != null && other == null; at = at.getSuperclass()) {
            other = roots.get(at);
        }
        if (other == null) {
            return Optional.empty();
        }
        read(other);
        return Optional.ofNullable(other.entity().plainKey());
    }

    private Generation generation(Draft draft, List<Member> members) {
        Member only = members.get(0);
        Optional<GeneratedValue> generated = members.stream().flatMap(it -> it.find(GeneratedValue.class).stream())
                .findFirst();
        if (generated.isEmpty()) {
            return Generation.ASSIGNED;
        }
        Class<?> type = Types.boxed(only.javaType());
        // (by its name, which versions before 3.1 don't have)
        boolean isUuid = generated.get().strategy().name().equals("UUID")
                || generated.get().strategy() == GenerationType.AUTO && type == UUID.class;
        if (members.size() > 1) {
            faults.add(only, "a part of a key isn't generated", "Leave out @GeneratedValue, or make it the whole key");
        } else if (isUuid && type != UUID.class && type != String.class) {
            faults.add(only, "a UUID is no " + type.getName(), "Declare it as java.util.UUID or String");
        } else if (!isUuid && !isCounted(type)) {
            faults.add(only, "a generated number is no " + type.getName(),
                    "Declare it as Long, or use GenerationType.UUID");
        } else if (!isUuid) {
            generators.use(only, draft.entity(), generated.get());
        }
        return isUuid ? Generation.UUID : Generation.COUNTER;
    }

    private static boolean isCounted(Class<?> type) {
        return type == Long.class || type == Integer.class || type == Short.class || type == Byte.class
                || type == BigInteger.class;
    }

    private static PlainKey.Holder holder(Class<?> javaClass, MethodHandle constructor, List<Part> parts) {
        return new PlainKey.Holder(javaClass, constructor, parts.stream().map(Part::inHolder).toList());
    }

    private void finish(
            Draft draft, List<Part> found, Generation generation, PlainKey.Holder holder, Member embedded,
                    boolean isZeroNone) {
        PlainEntity entity = draft.entity();
        if (found.isEmpty() || found.size() > MOST_PARTS) {
            faults.add(entity.javaClass(), "its key has " + found.size() + " parts", "Let it have one to "
                    + MOST_PARTS);
            return;
        }
        String before = embedded == null ? "" : embedded.name() + ".";
        boolean isNamed = embedded != null || found.size() > 1;
        String keyName = isNamed ? draft.names().give(embedded != null ? embedded.name() : "id_") : null;
        Names leaves = isNamed ? new Names() : draft.names();
        List<PlainAttribute> parts = new ArrayList<>();
        for (Part part : found) {
            String leaf = leaves.give(part.leaf());
            String member = isNamed ? keyName + "." + leaf : leaf;
            parts.add(new PlainAttribute(before + part.path(), member, Attribute.Role.KEY, part.codec(), true,
                    part.where(),
                    part.column()).unique(part.isUnique()).within(part.width()));
        }
        Place embeddedAt = embedded == null ? null : Way.to(embedded);
        entity.isKnownBy(new PlainKey(parts, generation, holder, embedded == null ? null : embedded.name(), embeddedAt,
                isZeroNone), keyName);
        for (Member member : draft.reader().keyMembers()) {
            entity.relation(member.name()).ifPresent(relation -> entity.plainKey()
                    .derives(new KeyModel.Derived(relation,
                    parts.stream().filter(it -> it.path().startsWith(member.name() + ".")).map(Attribute.class::cast)
                            .toList())));
        }
    }

    /** Joins the relations with {@code @MapsId} to the parts of the key that they give. */
    private void mapIds(Draft draft) {
        PlainKey key = draft.entity().plainKey();
        for (PlainRelation relation : draft.entity().ownRelations()) {
            Optional<MapsId> mapsId = relation.said().declared().find(MapsId.class);
            if (mapsId.isEmpty()) {
                continue;
            }
            Member member = relation.said().declared();
            Optional<PlainKey> theirs = targetKey(draft, member);
            String at = key.embedded().map(it -> it + ".").orElse("") + mapsId.get().value();
            List<Attribute> parts = mapsId.get().value().isEmpty() ? key.parts()
                    : key.parts().stream().filter(it -> it.path().equals(at) || it.path().startsWith(at + "."))
                            .toList();
            if (theirs.isPresent() && !fits(parts, theirs.get().parts())) {
                faults.add(member, "@MapsId names parts of the key that aren't those of the key of "
                        + relation.said().target().getName(), "Name a part of the same type");
            } else if (key.generation() != Generation.ASSIGNED) {
                faults.add(member, "the key is generated, and @MapsId gives it too", "Leave out @GeneratedValue");
            } else {
                key.derives(new KeyModel.Derived(relation, parts));
            }
        }
    }

    private static boolean fits(List<Attribute> ours, List<Attribute> theirs) {
        boolean fits = ours.size() == theirs.size();
        for (int i = 0; fits && i < ours.size(); i++) {
            fits = ours.get(i).codec().javaType() == theirs.get(i).codec().javaType();
        }
        return fits;
    }
}
