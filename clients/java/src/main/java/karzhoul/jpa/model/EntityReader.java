package karzhoul.jpa.model;

import jakarta.persistence.AccessType;
import jakarta.persistence.Basic;
import jakarta.persistence.Column;
import jakarta.persistence.ElementCollection;
import jakarta.persistence.Embeddable;
import jakarta.persistence.Embedded;
import jakarta.persistence.EmbeddedId;
import jakarta.persistence.Id;
import jakarta.persistence.MappedSuperclass;
import jakarta.persistence.Version;
import java.lang.invoke.MethodHandle;
import java.lang.reflect.Modifier;
import java.lang.reflect.ParameterizedType;
import java.lang.reflect.Type;
import java.lang.reflect.TypeVariable;
import java.util.ArrayList;
import java.util.LinkedHashMap;
import java.util.List;
import java.util.Map;
import java.util.Optional;
import java.util.Set;
import java.util.stream.Collectors;
import java.util.stream.Stream;

/** Reads the members of one entity: its own, and those of the mapped superclasses between it and the entity above. */
final class EntityReader {
    static final int MOST_NESTED = 8;

    /** An attribute that is neither inserted nor updated; its place is found once the relations were read. */
    private record Unwritten(Member member, Way way, String path, Codec codec, boolean isRequired, String column,
            boolean isUnique, Width width) {}

    private final Faults faults;
    private final Members members;
    private final Codecs codecs;
    private final RelationReader relations;
    private final MemberCheck memberCheck;
    private final ElementReader elements;
    private final List<PlainEntity> hidden = new ArrayList<>();
    private final PlainEntity entity;
    private final Names names;
    private final AccessType access;
    private final Map<TypeVariable<?>, Type> known;
    private final List<Member> keyMembers = new ArrayList<>();
    private final List<Unwritten> unwritten = new ArrayList<>();

    /**
     * @param names the names that the hierarchy has given already
     * @param entityNames the names that entities of the mapping have already
     */
    EntityReader(Faults faults, Codecs codecs, PlainEntity entity, Names names, Names entityNames) {
        this.faults = faults;
        this.members = new Members(faults);
        this.codecs = codecs;
        this.relations = new RelationReader(faults);
        this.memberCheck = new MemberCheck(faults);
        this.elements = new ElementReader(faults, codecs, this, entity, entityNames);
        this.entity = entity;
        this.names = names;
        this.access = Members.accessOf(entity.javaClass());
        this.known = Types.arguments(entity.javaClass());
    }

    /** Reads all but the key, whose members are kept for the {@link KeyReader}. */
    void read() {
        Scope scope = null;
        Map<String, Scope> scopes = new LinkedHashMap<>();
        Map<String, Member> found = new LinkedHashMap<>();
        List<Class<?>> chain = chain();
        for (int i = chain.size() - 1; i >= 0; i--) {
            scope = new Scope(scope, "", chain.get(i));
            scopes.put(chain.get(i).getName(), scope);
        }
        for (Class<?> at : chain) {
            for (Member member : members.of(at, access, known)) {
                take(found, member);
            }
        }
        for (Member member : found.values()) {
            read(member, scopes.get(member.declaring().getName()));
        }
        unwritten.forEach(this::readUnwritten);
        for (Class<?> at : chain) {
            memberCheck.checkOverrides(at, allPaths());
        }
    }

    /** The paths of the own attributes, with those of the key. */
    private Set<String> allPaths() {
        Set<String> paths = pathsWithin("");
        entity.version().ifPresent(it -> paths.add(it.path()));
        for (Member member : keyMembers) {
            paths.add(member.name());
            if (member.has(EmbeddedId.class)) {
                embeddedMembers(member.javaType(), member).forEach(it -> paths.add(member.name() + "." + it.name()));
            }
        }
        return paths;
    }

    /** The entities of rows that it has, which no application sees. */
    List<PlainEntity> hidden() {
        return hidden;
    }

    List<Member> keyMembers() {
        return keyMembers;
    }

    AccessType access() {
        return access;
    }

    Members members() {
        return members;
    }

    Map<TypeVariable<?>, Type> known() {
        return known;
    }

    /** The mapped superclasses below the entity above, and the entity itself, from above. */
    private List<Class<?>> chain() {
        Class<?> end = entity.above() == null ? Object.class : entity.above().javaClass();
        List<Class<?>> chain = new ArrayList<>();
        for (Class<?> at = entity.javaClass(); at != null && at != end; at = at.getSuperclass()) {
            if (at == entity.javaClass() || at.isAnnotationPresent(MappedSuperclass.class)) {
                chain.add(0, at);
            }
        }
        return chain;
    }

    /** A property that is overridden counts where it was declared last; a field can't be declared twice. */
    private void take(Map<String, Member> found, Member member) {
        Member above = found.get(member.name());
        boolean isBelow = entity.above() != null && entity.above().hasMember(member.name());
        boolean isProperty = member.accessor().isProperty();
        if (!isProperty && (above != null || isBelow)) {
            faults.add(member, "a class above has a member of this name too", "Name it otherwise, or add @Transient");
        } else if (!isBelow) {
            found.put(member.name(), member);
            entity.declares(member.name());
        }
    }

    private void read(Member member, Scope scope) {
        memberCheck.check(member);
        if (member.has(Id.class) || member.has(EmbeddedId.class)) {
            keyMembers.add(member);
            if (RelationReader.isRelation(member)) {
                readRelation(member, Way.to(member), member.name(), scope, member.name());
            }
        } else if (member.has(Version.class)) {
            readVersion(member);
        } else {
            read(member, Way.to(member), member.name(), scope, member.name(), 0);
        }
    }

    /**
     * @param path its path from the entity
     * @param inScope its path from the members that the scope is about
     */
    private void read(Member member, Way way, String path, Scope scope, String inScope, int depth) {
        if (member.has(ElementCollection.class)) {
            elements.read(member, way, path, names.give(path), scope, inScope).ifPresent(hidden::add);
        } else if (RelationReader.isRelation(member)) {
            readRelation(member, way, path, scope, inScope);
        } else if (member.has(Embedded.class) || member.javaType().isAnnotationPresent(Embeddable.class)) {
            readEmbedded(member, way, path, scope, inScope, depth);
        } else {
            readBasic(member, way, path, scope, inScope);
        }
    }

    private void readBasic(Member member, Way way, String path, Scope scope, String inScope) {
        Optional<Column> column = scope.column(inScope).or(() -> member.find(Column.class));
        Optional<Codec> codec = codecs.of(member, scope, inScope, column);
        boolean isRequired = column.filter(it -> !it.nullable()).isPresent()
                || member.find(Basic.class).filter(it -> !it.optional()).isPresent();
        column.ifPresent(it -> memberCheck.check(member, it));
        boolean isInserted = column.map(Column::insertable).orElse(true);
        boolean isUpdated = column.map(Column::updatable).orElse(true);
        if (codec.isEmpty()) {
            return;
        } else if (!isInserted && !isUpdated) {
            unwritten.add(new Unwritten(member, way, path, codec.get(), isRequired, columnName(column, path),
                    column.map(Column::unique).orElse(false), Width.of(member, codec.get(), column)));
        } else {
            entity.has(new PlainAttribute(path, names.give(path), Attribute.Role.PLAIN, codec.get(), isRequired, way,
                    entity.columnOf(columnName(column, path))).written(isInserted, isUpdated)
                    .unique(column.map(Column::unique).orElse(false)).within(Width.of(member, codec.get(), column)));
        }
    }

    /** One whose column nobody writes by it: that of a relation, or one of its own, which stays as it is. */
    private void readUnwritten(Unwritten it) {
        Optional<PlainRelation> relation = entity.joinedBy(it.column());
        if (relation.isPresent()) {
            if (it.isUnique()) {
                faults.add(it.member(), "it reads the column of a relation, and says that it is unique",
                        "Say so at the @JoinColumn");
            }
            entity.has(new KeyCopy(it.member(), it.path(), it.codec(), it.way(), relation.get()));
            return;
        }
        if (it.isRequired()) {
            faults.add(it.member(), "it may not be null, and nothing writes it",
                    "Leave insertable and updatable out, or give it the column of a relation");
        }
        entity.has(new PlainAttribute(it.path(), names.give(it.path()), Attribute.Role.PLAIN, it.codec(),
                it.isRequired(), it.way(), entity.columnOf(it.column())).written(false, false).unique(it.isUnique())
                .within(it.width()));
    }

    /** Columns of a class below the root are its own, whatever classes beside it have; so are those of other tables. */
    private String columnName(Optional<Column> column, String path) {
        String name = column.map(Column::name).filter(it -> !it.isEmpty()).orElse(path);
        String table = column.map(Column::table).filter(it -> !it.isEmpty()).orElse("");
        return table.isEmpty() || table.equalsIgnoreCase(entity.root().table()) ? name : table + "." + name;
    }

    private void readVersion(Member member) {
        Optional<Codec> codec = codecs.of(member, new Scope(null, "", member.annotated()), member.name(),
                Optional.empty());
        if (entity.above() != null) {
            faults.add(member, "the version belongs into the class at the top of the hierarchy", "Move @Version to "
                    + entity.root().javaClass().getName());
        } else if (entity.version().isPresent()) {
            faults.add(member, "there is another @Version", "Leave one of them out");
        } else if (codec.isPresent() && codec.get().meaning().equals("whole")) {
            String column = member.find(Column.class).map(Column::name).filter(it -> !it.isEmpty())
                    .orElse(member.name());
            entity.isVersionedBy(new PlainAttribute(member.name(), names.give(member.name()), Attribute.Role.VERSION,
                    codec.get(),
                    true, Way.to(member), column));
        } else if (codec.isPresent()) {
            faults.add(member, "a version of " + member.javaType().getName() + " isn't kept: versions are counted",
                    "Declare it as int, long, short, or one of their classes");
        }
    }

    private void readRelation(Member member, Way way, String path, Scope scope, String inScope) {
        Optional<PlainRelation.Said> said = relations.read(member);
        if (said.isEmpty()) {
            return;
        }
        boolean isOwner = said.get().mappedBy().isEmpty();
        String stored = isOwner ? RelationReader.storedName(member, said.get(), entity.table(), path,
                scope.association(inScope)) : null;
        boolean isColumn = isOwner && said.get().container() == Relation.Container.ONE;
        Place where = said.get().container() == Relation.Container.MAP
                ? new MapPlace(way, entity.name() + "." + path) : way;
        entity.has(new PlainRelation(path, names.give(path), said.get(), where, isColumn ? entity.columnOf(stored) : stored));
    }

    private void readEmbedded(Member member, Way way, String path, Scope scope, String inScope, int depth) {
        Class<?> type = member.javaType();
        Optional<MethodHandle> constructor = embeddable(faults, member);
        if (constructor.isEmpty()) {
            return;
        }
        if (depth == MOST_NESTED) {
            faults.add(member, "embeddables are nested more than " + MOST_NESTED + " deep",
                    "Leave out the circle, or add @Transient");
            return;
        }
        Scope inner = new Scope(scope, inScope + ".", member.annotated());
        for (Member part : embeddedMembers(type, member)) {
            memberCheck.check(part);
            read(part, way.then(constructor.get(), part), path + "." + part.name(), inner, part.name(), depth + 1);
        }
        memberCheck.checkOverrides(member, pathsWithin(path + "."));
    }

    private Set<String> pathsWithin(String before) {
        return Stream.concat(entity.ownAttributes().stream().map(PlainAttribute::path),
                        unwritten.stream().map(Unwritten::path))
                .filter(it -> it.startsWith(before))
                .map(it -> it.substring(before.length()))
                .collect(Collectors.toSet());
    }

    /** The constructor of the embeddable that a member has; empty where there is none, which was told then. */
    static Optional<MethodHandle> embeddable(Faults faults, Member member) {
        Class<?> type = member.javaType();
        if (!type.isAnnotationPresent(Embeddable.class)) {
            faults.add(member, type.getName() + " is no embeddable", "Annotate that class with @Embeddable");
            return Optional.empty();
        }
        if (type.isRecord() || Modifier.isAbstract(type.getModifiers())) {
            faults.add(type, "a record, an interface or an abstract class is no embeddable",
                    "Make it a class with a constructor "
                    + "without parameters");
            return Optional.empty();
        }
        return constructor(faults, type);
    }

    /** The constructor without parameters of a class; empty where there is none, which was told then. */
    static Optional<MethodHandle> constructor(Faults faults, Class<?> type) {
        try {
            return Optional.of(Accessor.constructor(type));
        } catch (NoSuchMethodException missing) {
            boolean isInner = type.isMemberClass() && !Modifier.isStatic(type.getModifiers());
            faults.add(type, isInner ? "it is an inner class" : "it has no constructor without parameters",
                    isInner ? "Make it static" : "Add one; it may be protected");
        } catch (IllegalAccessException closed) {
            faults.add(type, "its module doesn't open its package", Members.openWords(type));
        }
        return Optional.empty();
    }

    /** The members of an embeddable, and of mapped superclasses and embeddables above it. */
    List<Member> embeddedMembers(Class<?> type, Member holder) {
        Map<TypeVariable<?>, Type> arguments = new LinkedHashMap<>(known);
        arguments.putAll(Types.arguments(type));
        if (holder.type() instanceof ParameterizedType applied) {
            for (int i = 0; i < type.getTypeParameters().length; i++) {
                arguments.put(type.getTypeParameters()[i], applied.getActualTypeArguments()[i]);
            }
        }
        List<Member> all = new ArrayList<>();
        for (Class<?> at = type; at != null && at != Object.class; at = at.getSuperclass()) {
            if (at.isAnnotationPresent(Embeddable.class) || at.isAnnotationPresent(MappedSuperclass.class)) {
                all.addAll(0, members.of(at, access, arguments));
            }
        }
        return all;
    }
}
