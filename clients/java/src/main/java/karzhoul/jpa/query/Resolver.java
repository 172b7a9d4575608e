package karzhoul.jpa.query;

import java.util.AbstractMap;
import java.util.ArrayList;
import java.util.HashSet;
import java.util.IdentityHashMap;
import java.util.List;
import java.util.Map;
import java.util.Optional;
import java.util.Set;
import karzhoul.jpa.model.Attribute;
import karzhoul.jpa.model.Elements;
import karzhoul.jpa.model.EntityModel;
import karzhoul.jpa.model.KeyModel;
import karzhoul.jpa.model.Relation;
import karzhoul.jpa.model.UnitModel;
import karzhoul.jpa.query.Tree.Aggregate;
import karzhoul.jpa.query.Tree.Assignment;
import karzhoul.jpa.query.Tree.Compare;
import karzhoul.jpa.query.Tree.Condition;
import karzhoul.jpa.query.Tree.Construct;
import karzhoul.jpa.query.Tree.Delete;
import karzhoul.jpa.query.Tree.Derived;
import karzhoul.jpa.query.Tree.Downcast;
import karzhoul.jpa.query.Tree.Embedded;
import karzhoul.jpa.query.Tree.EntityName;
import karzhoul.jpa.query.Tree.Exists;
import karzhoul.jpa.query.Tree.Item;
import karzhoul.jpa.query.Tree.ItemName;
import karzhoul.jpa.query.Tree.Join;
import karzhoul.jpa.query.Tree.Key;
import karzhoul.jpa.query.Tree.Literal;
import karzhoul.jpa.query.Tree.MapPart;
import karzhoul.jpa.query.Tree.Member;
import karzhoul.jpa.query.Tree.Not;
import karzhoul.jpa.query.Tree.Or;
import karzhoul.jpa.query.Tree.Path;
import karzhoul.jpa.query.Tree.Range;
import karzhoul.jpa.query.Tree.Reference;
import karzhoul.jpa.query.Tree.Select;
import karzhoul.jpa.query.Tree.Source;
import karzhoul.jpa.query.Tree.Statement;
import karzhoul.jpa.query.Tree.Treated;
import karzhoul.jpa.query.Tree.Update;
import karzhoul.jpa.query.Tree.Value;
import karzhoul.jpa.query.Tree.Variable;

/** Puts in the place of names what they name: variables, paths, entities, enum constants, result variables. */
final class Resolver extends Rewriting {
    private final UnitModel unit;
    private final String text;
    private final Paths paths;
    private final List<Downcast> downcasts = new ArrayList<>();
    private final Map<Variable, Relation> along = new IdentityHashMap<>();
    private Scope scope;
    /** The variable of an UPDATE or DELETE that may be left out before a path. */
    private Variable implied;

    private Resolver(UnitModel unit, String text) {
        this.unit = unit;
        this.text = text;
        this.paths = new Paths(text);
    }

    /**
     * The statement with what its names name.
     *
     * @throws QueryFault where a name is none, is declared twice, or leads to what can't stand there
     */
    static Statement resolve(UnitModel unit, String text, Statement statement) {
        Resolver resolver = new Resolver(unit, text);
        if (statement instanceof Select select) {
            return resolver.select(select);
        }
        return statement instanceof Update update ? resolver.update(update) : resolver.delete((Delete) statement);
    }

    private Update update(Update update) {
        Range range = changed(update.range());
        List<Assignment> assignments = new ArrayList<>();
        for (Assignment assignment : update.assignments()) {
            assignments.add(new Assignment(value(assignment.path()), value(assignment.value())));
        }
        return new Update(update.at(), range, assignments, conditionOrNull(update.where()));
    }

    private Delete delete(Delete delete) {
        return new Delete(delete.at(), changed(delete.range()), conditionOrNull(delete.where()));
    }

    private Range changed(Range range) {
        scope = new Scope(null);
        Variable variable = new Variable(range.name() == null ? range.entity() : range.name(), entity(range));
        implied = variable;
        if (range.name() != null) {
            scope.add(variable);
        }
        return new Range(range.at(), range.entity(), variable.name, variable);
    }

    // ---- FROM

    @Override
    Select select(Select select) {
        scope = new Scope(scope);
        Select found = selectWithin(entries(select.order().isEmpty() ? select : named(select)));
        checkNames(select);
        scope = scope.outer;
        return TreatedRanges.inClauses(found);
    }

    /** With objects of a key and a value in the places of ENTRY, which stands in SELECT alone (chapter 4.8). */
    private static Select entries(Select select) {
        return new Select(select.at(), select.isDistinct(), each(select.items(), Resolver::entry), select.sources(),
                select.where(), select.groups(), select.having(), select.order());
    }

    private static Item entry(Item item) {
        if (!(item.value() instanceof MapPart part) || !part.part().equals("ENTRY")) {
            return item;
        }
        List<Item> parts = new ArrayList<>();
        for (String name : List.of("KEY", "VALUE")) {
            parts.add(new Item(new MapPart(part.at(), name, part.variable(), part.names()), null));
        }
        return new Item(new Construct(part.at(), AbstractMap.SimpleImmutableEntry.class.getName(), parts), item.name());
    }

    private void checkNames(Select select) {
        Set<String> seen = new HashSet<>();
        for (Item item : select.items()) {
            if (item.name() != null && !seen.add(item.name())) {
                throw fault(item.value().at(), "two items are named \"" + item.name() + "\"");
            }
        }
    }

    /** With the result variables of ORDER BY in the place of their names. */
    private Select named(Select select) {
        List<Key> order = new ArrayList<>();
        for (Key key : select.order()) {
            order.add(new Key(itemName(select, key.value()), key.isDescending()));
        }
        return new Select(select.at(), select.isDistinct(), select.items(), select.sources(), select.where(),
                select.groups(), select.having(), order);
    }

    private static Value itemName(Select select, Value value) {
        if (value instanceof Path path && path.names().size() == 1) {
            for (int place = 0; place < select.items().size(); place++) {
                if (path.names().get(0).equals(select.items().get(place).name())) {
                    return new ItemName(path.at(), place);
                }
            }
        }
        return value;
    }

    @Override
    Source source(Source source) {
        if (source instanceof Range range) {
            return new Range(range.at(), range.entity(), range.name(),
                    declared(range.at(), range.name(), entity(range)));
        }
        if (source instanceof Derived derived) {
            Reference path = related(treatedPath(derived.path()));
            if (derived.isMember() && !path.isCollection()) {
                throw fault(derived.at(), "IN asks for a collection, and \"" + path + "\" is none");
            }
            if (!derived.isMember() && scope.isOwn(path.variable())) {
                throw fault(derived.at(), "a path of the block's own variable \"" + path.variable().name
                        + "\" is joined: JOIN " + path);
            }
            Variable variable = declared(derived.at(), derived.name(), treatedEntity(derived.path(), path));
            along.put(variable, last(path));
            return new Derived(derived.at(), derived.isMember(), path, derived.name(), variable);
        }
        Join join = (Join) source;
        Reference path = related(treatedPath(join.path()));
        EntityModel entity = treatedEntity(join.path(), path);
        Variable variable = join.name() == null ? new Variable("fetched", entity)
                : declared(join.at(), join.name(), entity);
        along.put(variable, last(path));
        return new Join(join.at(), join.isLeft(), join.isFetch(), path, join.name(), variable,
                conditionOrNull(join.on()));
    }

    private static Relation last(Reference path) {
        return path.steps().get(path.steps().size() - 1);
    }

    /** The path that a join of TREAT is along. */
    private Value treatedPath(Value path) {
        if (path instanceof Treated treated && !treated.names().isEmpty()) {
            throw fault(path.at(), "a join is along a path of a variable; join TREAT(..) first, and go on from the "
                    + "variable of that");
        }
        return path instanceof Treated treated ? treated.path() : path;
    }

    private EntityModel treatedEntity(Value path, Reference found) {
        return path instanceof Treated treated ? below(treated, found.entity()) : found.entity();
    }

    private Reference related(Value path) {
        if (!(value(path) instanceof Reference found) || found.steps().isEmpty() || found.attribute() != null
                || found.isWholeKey()) {
            throw fault(path.at(), "expected a path to a relation");
        }
        return found;
    }

    private Variable declared(int at, String name, EntityModel entity) {
        Variable variable = new Variable(name, entity);
        if (!scope.add(variable)) {
            throw fault(at, "the variable \"" + name + "\" is declared twice");
        }
        return variable;
    }

    private EntityModel entity(Range range) {
        return entity(range.at(), range.entity());
    }

    private EntityModel entity(int at, String name) {
        EntityModel entity = unit.named(name);
        if (entity == null) {
            throw fault(at, "there is no entity \"" + name + "\""
                    + Nearest.hint(name, unit.entities().stream().map(EntityModel::name).toList()));
        }
        return entity;
    }

    // ---- values

    @Override
    Value value(Value value) {
        if (value instanceof Path path) {
            return named(path);
        }
        if (value instanceof MapPart part) {
            return mapPart(part);
        }
        if (value instanceof Treated treated) {
            return downcast(treated);
        }
        Value within = valueWithin(value);
        return within instanceof Aggregate of && of.kind() == Aggregate.Kind.COUNT
                && of.operand() instanceof Embedded whole && whole.isElement() ? counted(of, whole) : within;
    }

    /** COUNT of embeddables of a collection counts their rows; what of them is distinct isn't asked (chapter 4.8.5). */
    private Value counted(Aggregate count, Embedded whole) {
        if (count.isDistinct()) {
            throw QueryFault.refusal(text, whole.at(), "COUNT(DISTINCT " + whole + ") isn't served: \"" + whole
                    + "\" is an embeddable, of which the standard has no DISTINCT in COUNT; count an attribute of it");
        }
        return new Aggregate(count.at(), count.kind(), false,
                new Reference(whole.at(), whole.parts().get(0).variable(), List.of(), null, false));
    }

    /** KEY, VALUE and INDEX of a variable along a collection (chapters 4.4.2.1 and 4.6.17.2.2). */
    private Value mapPart(MapPart part) {
        List<String> names = new ArrayList<>(List.of(part.variable()));
        names.addAll(part.names());
        Variable variable = scope.find(part.variable());
        Optional<Elements> elements = variable == null ? Optional.empty() : variable.entity.rowsOf();
        if (part.part().equals("VALUE") || variable == null) {
            return named(new Path(part.at(), names));
        }
        Optional<Attribute> asked = elements.flatMap(it -> switch (part.part()) {
            case "KEY" -> it.key();
            case "INDEX" -> it.index();
            default -> Optional.empty();
        });
        if (asked.isPresent() && part.names().isEmpty()) {
            return new Reference(part.at(), variable, List.of(), asked.get(), false);
        }
        Optional<String> mapKey = part.part().equals("KEY") && along.containsKey(variable) ? along.get(variable).mapKey()
                : Optional.empty();
        if (mapKey.isPresent()) {
            return keyOf(part, variable, mapKey.get());
        }
        throw QueryFault.at(text, part.at(), switch (part.part()) {
            case "ENTRY" -> "ENTRY is an item of SELECT, and stands nowhere else";
            case "KEY" -> "KEY takes a variable along a Map, and \"" + part.variable() + "\" is of " + variable.entity.name();
            default -> "INDEX takes a variable along a List of values with @OrderColumn, and \"" + part.variable()
                    + "\" is of " + variable.entity.name();
        });
    }

    /** The key of a map of entities, which is an attribute of a member or its own key. */
    private Value keyOf(MapPart part, Variable variable, String attribute) {
        KeyModel key = variable.entity.key();
        boolean isWhole = attribute.isEmpty() && key.embedded().isEmpty() && key.parts().size() > 1;
        if (isWhole && part.names().isEmpty()) {
            return new Reference(part.at(), variable, List.of(), null, true);
        }
        List<String> names = new ArrayList<>();
        if (!isWhole) {
            String own = key.embedded().orElseGet(() -> key.parts().get(0).path());
            names.addAll(List.of((attribute.isEmpty() ? own : attribute).split("[.]")));
        }
        names.addAll(part.names());
        return path(part.at(), variable, names);
    }

    @Override
    Condition condition(Condition condition) {
        if (condition instanceof Member member && value(member.path()) instanceof Reference path
                && path.isCollection() && path.entity().rowsOf().isPresent()) {
            return elementOf(member, path);
        }
        return conditionWithin(condition);
    }

    /** MEMBER OF a collection of values: a row of it has the value; unknown where the value is null. */
    private Condition elementOf(Member member, Reference path) {
        Optional<Attribute> basic = path.entity().rowsOf().orElseThrow().basic();
        if (basic.isEmpty()) {
            throw QueryFault.refusal(text, member.at(), "MEMBER OF a collection of embeddables isn't served; ask EXISTS"
                    + " of a variable along it, by its attributes");
        }
        Variable variable = new Variable("element", path.entity());
        Reference element = new Reference(member.at(), variable, List.of(), basic.get(), false);
        Value value = value(member.value());
        Condition has = new Exists(member.at(), false, new Select(member.at(), false, List.of(new Item(element, null)),
                List.of(new Derived(member.at(), false, path, "element", variable)),
                new Compare(member.at(), "=", element, value), List.of(), null, List.of()));
        if (value instanceof Reference of) {
            has = new Or(member.at(), List.of(has, new Compare(member.at(), "<>", of, of)));
        }
        return member.isNot() ? new Not(member.at(), has) : has;
    }

    private Value downcast(Treated treated) {
        if (!(value(treated.path()) instanceof Reference of) || !of.isEntity()) {
            throw fault(treated.path().at(), "TREAT takes a variable or a path to one entity");
        }
        EntityModel entity = below(treated, of.entity());
        if (of.entity() == entity) {
            return paths.of(treated.at(), of, treated.names());
        }
        for (Downcast known : downcasts) {
            if (known.of().isSame(of) && known.path().variable().entity == entity) {
                return new Downcast(treated.at(), of, paths.of(treated.at(), known.path().variable(), treated.names()));
            }
        }
        Variable variable = new Variable("treated", entity);
        Downcast found = new Downcast(treated.at(), of, paths.of(treated.at(), variable, treated.names()));
        downcasts.add(found);
        return found;
    }

    /** The entity of a TREAT: the one of its path, or one below. */
    private EntityModel below(Treated treated, EntityModel of) {
        EntityModel entity = entity(treated.at(), treated.entity());
        if (!entity.isA(of)) {
            throw fault(treated.at(), "TREAT takes what is below " + of.name() + ", and " + entity.name() + " isn't");
        }
        return entity;
    }

    private Value named(Path path) {
        List<String> names = path.names();
        Variable variable = scope.find(names.get(0));
        if (variable != null) {
            return path(path.at(), variable, names.subList(1, names.size()));
        }
        Class<?> type = names.size() == 1 ? null : enumOf(names);
        if (type != null) {
            return constant(path.at(), type, names.get(names.size() - 1));
        }
        if (implied != null && isMember(implied.entity, names.get(0))) {
            return path(path.at(), implied, names);
        }
        EntityModel entity = names.size() == 1 ? unit.named(names.get(0)) : null;
        if (entity != null) {
            return new EntityName(path.at(), entity);
        }
        throw fault(path.at(), "there is no variable \"" + names.get(0) + "\"" + (names.size() == 1 ? ""
                : " and no enum \"" + className(names) + "\"") + Nearest.hint(names.get(0), known()));
    }

    private Value path(int at, Variable variable, List<String> names) {
        if (names.isEmpty() && variable.entity.rowsOf().isPresent()) {
            return element(at, variable, variable.entity.rowsOf().get());
        }
        Embedded embedded = names.isEmpty() ? null : paths.embedded(at, new Reference(at, variable, List.of(), null, false),
                names);
        return embedded != null ? embedded : paths.of(at, variable, names);
    }

    /** What a variable along a collection of values stands for: the value, or the embeddable. */
    private static Value element(int at, Variable variable, Elements elements) {
        List<Reference> parts = new ArrayList<>();
        elements.attributes().forEach(it -> parts.add(new Reference(at, variable, List.of(), it, false)));
        return elements.basic().isPresent() ? parts.get(0) : new Embedded(at, elements.javaClass(), List.of(), parts);
    }

    private List<String> known() {
        List<String> names = scope.names();
        if (implied != null) {
            implied.entity.attributes().forEach(attribute -> names.add(attribute.path()));
            implied.entity.relations().forEach(relation -> names.add(relation.path()));
        }
        return names;
    }

    private static boolean isMember(EntityModel entity, String name) {
        return entity.attributes().stream().anyMatch(a -> a.path().equals(name) || a.path().startsWith(name + "."))
                || entity.relations().stream().anyMatch(r -> r.path().equals(name) || r.path().startsWith(name + "."));
    }

    /** The enum whose constant these names are, by its qualified name or by its own where an attribute is of it; or null. */
    private Class<?> enumOf(List<String> names) {
        Class<?> type = names.size() > 2 ? Classes.find(unit, className(names)) : null;
        return type != null && type.isEnum() ? type : enumOfAttribute(className(names));
    }

    private static String className(List<String> names) {
        return String.join(".", names.subList(0, names.size() - 1));
    }

    private Literal constant(int at, Class<?> type, String name) {
        List<String> constants = new ArrayList<>();
        for (Object constant : type.getEnumConstants()) {
            if (((Enum<?>) constant).name().equals(name)) {
                return new Literal(at, constant);
            }
            constants.add(((Enum<?>) constant).name());
        }
        throw fault(at, type.getName() + " has no constant \"" + name + "\"" + Nearest.hint(name, constants));
    }

    private Class<?> enumOfAttribute(String name) {
        Class<?> found = null;
        for (EntityModel entity : unit.entities()) {
            for (Attribute attribute : entity.attributes()) {
                Class<?> type = attribute.codec().javaType();
                if (type.isEnum() && isNamed(type, name)) {
                    if (found != null && found != type) {
                        return null;
                    }
                    found = type;
                }
            }
        }
        return found;
    }

    private static boolean isNamed(Class<?> type, String name) {
        return type.getSimpleName().equals(name) || type.getName().replace('$', '.').equals(name)
                || type.getName().equals(name);
    }

    private QueryFault fault(int at, String reason) {
        return QueryFault.at(text, at, reason);
    }
}
