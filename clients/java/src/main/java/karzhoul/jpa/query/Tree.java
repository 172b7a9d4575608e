package karzhoul.jpa.query;

import java.util.List;
import karzhoul.jpa.model.Attribute;
import karzhoul.jpa.model.EntityModel;
import karzhoul.jpa.model.Relation;

/**
 * The trees of queries (chapter 4 of Jakarta Persistence 3.1). The parser makes paths of names; {@link Resolver} puts
 * {@link Reference}, {@link Literal} and {@link EntityName} in their places. The number that most nodes have first is
 * where they begin in the text.
 */
public interface Tree {

    /** A statement (chapter 4.2). */
    sealed interface Statement permits Select, Update, Delete {}

    /** A SELECT statement or a subquery; what is left out is null, or an empty list. */
    record Select(int at, boolean isDistinct, List<Item> items, List<Source> sources, Condition where,
            List<Value> groups, Condition having, List<Key> order) implements Statement {}

    /** An UPDATE statement (chapter 4.10). */
    record Update(int at, Range range, List<Assignment> assignments, Condition where) implements Statement {}

    /** A DELETE statement (chapter 4.10). */
    record Delete(int at, Range range, Condition where) implements Statement {}

    /** What SET gives a path. */
    record Assignment(Value path, Value value) {}

    /** A SELECT item with its result variable, or null. */
    record Item(Value value, String name) {}

    /** A key of ORDER BY. */
    record Key(Value value, boolean isDescending) {}

    /** What an identification variable is. Two of one name in different blocks are two. */
    static final class Variable {
        final String name;
        final EntityModel entity;

        Variable(String name, EntityModel entity) {
            this.name = name;
            this.entity = entity;
        }
    }

    /** What declares a variable in FROM, in the order of the text. */
    sealed interface Source permits Range, Join, Derived {
        Variable variable();
    }

    /** An entity and its variable. */
    record Range(int at, String entity, String name, Variable variable) implements Source {}

    /** A join; the name may be null where it fetches. */
    record Join(int at, boolean isLeft, boolean isFetch, Value path, String name, Variable variable, Condition on)
            implements Source {}

    /** IN (path), or a path in the FROM of a subquery. */
    record Derived(int at, boolean isMember, Value path, String name, Variable variable) implements Source {}

    /** A value or a condition. */
    sealed interface Expression permits Value, Condition {
        int at();
    }

    /** What has a value. */
    sealed interface Value extends Expression permits Path, Reference, Literal, Parameter, EntityName, ItemName, Signed,
            Arithmetic, Call, Aggregate, Case, Scalar, TypeOf, Now, Treated, MapPart, Construct, Asked, Average,
                    PartOf, Outer, Downcast, Embedded {}

    /** Names with dots between them, as they are written. */
    record Path(int at, List<String> names) implements Value {
        @Override
        public String toString() {
            return String.join(".", names);
        }
    }

    /**
     * A path from a variable along relations to an attribute, to the whole embedded key, or to the last relation's
     * target; without relations and attribute it is the variable.
     */
    record Reference(int at, Variable variable, List<Relation> steps, Attribute attribute, boolean isWholeKey)
            implements Value {
        /** The entity to which the relations lead. */
        EntityModel entity() {
            return steps.isEmpty() ? variable.entity : steps.get(steps.size() - 1).target();
        }

        boolean isEntity() {
            return attribute == null && !isWholeKey && !isCollection();
        }

        boolean isCollection() {
            return attribute == null && !isWholeKey && !steps.isEmpty() && steps.get(steps.size() - 1).isMany();
        }

        /** Whether a null link on the way would leave the row out. */
        boolean canDrop() {
            return steps.size() > (attribute != null || isWholeKey || isCollection() ? 0 : 1)
                    && (steps.size() > 1 || !isCollection());
        }

        boolean isSame(Reference other) {
            return variable == other.variable && steps.equals(other.steps) && attribute == other.attribute
                    && isWholeKey == other.isWholeKey;
        }

        @Override
        public String toString() {
            StringBuilder text = new StringBuilder(variable.name);
            steps.forEach(step -> text.append('.').append(step.path()));
            if (attribute != null) {
                text.append('.').append(attribute.path());
            } else if (isWholeKey) {
                text.append('.').append(entity().key().embedded().orElse("id"));
            }
            return text.toString();
        }
    }

    /** A number, a text, a truth, a time, an enum's constant, or null. */
    record Literal(int at, Object value) implements Value {}

    /** A parameter by its name or its number. */
    record Parameter(int at, Object key) implements Value {
        @Override
        public String toString() {
            return (key instanceof String ? ":" : "?") + key;
        }
    }

    /** The name of an entity as a value (chapter 4.6.4, entity type literals). */
    record EntityName(int at, EntityModel entity) implements Value {}

    /** The result variable of an item, in ORDER BY. */
    record ItemName(int at, int place) implements Value {}

    /** A sign before a value. */
    record Signed(int at, boolean isMinus, Value value) implements Value {}

    /** One of + - * and / between two values. */
    record Arithmetic(int at, char sign, Value left, Value right) implements Value {}

    /** A function. */
    record Call(int at, Function function, List<Value> arguments) implements Value {}

    /** An aggregate. */
    record Aggregate(int at, Kind kind, boolean isDistinct, Value operand) implements Value {
        /** The aggregates. */
        public enum Kind { COUNT, SUM, AVG, MIN, MAX }
    }

    /** A general or a simple CASE, which has an operand (chapter 4.7.10). */
    record Case(int at, Value operand, List<When> whens, Value otherwise) implements Value {}

    /** A WHEN of a CASE: a condition, or in a simple one a value. */
    record When(Expression test, Value then) {}

    /** A subquery as a value. */
    record Scalar(int at, Select select) implements Value {}

    /** TYPE of a variable, a path or a parameter. */
    record TypeOf(int at, Value operand) implements Value {}

    /** CURRENT_DATE and the like. */
    record Now(int at, Kind kind) implements Value {
        /** Which of them. */
        public enum Kind { CURRENT_DATE, CURRENT_TIME, CURRENT_TIMESTAMP, LOCAL_DATE, LOCAL_TIME, LOCAL_DATETIME }
    }

    /** TREAT(path AS Entity), with the names behind it. */
    record Treated(int at, Value path, String entity, List<String> names) implements Value {}

    /** KEY, VALUE, ENTRY or INDEX of a variable, with the names behind it. */
    record MapPart(int at, String part, String variable, List<String> names) implements Value {}

    /** NEW of a class with its arguments. */
    record Construct(int at, String className, List<Item> arguments) implements Value {}

    /** The value of a block of its own, asked before the statement. */
    record Asked(int at, Select select, int number) implements Value {}

    /** A part of a parameter that is an embedded key. */
    record PartOf(int at, Parameter parameter, EntityModel entity, int place) implements Value {}

    /** A path to an embedded object as a whole: its attributes, and the names that lead to it from the last entity. */
    record Embedded(int at, Class<?> java, List<String> names, List<Reference> parts) implements Value {
        /** Whether it is what a variable along a collection stands for. */
        boolean isElement() {
            return names.isEmpty();
        }

        @Override
        public String toString() {
            if (isElement()) {
                return parts.get(0).variable().name;
            }
            String part = parts.get(0).toString();
            return part.substring(0, part.length() - parts.get(0).attribute().path().length()) + String.join(".", names);
        }
    }

    /** A path of a variable from outside, in a block that is asked for each row around it: known by then. */
    record Outer(int at, Reference path) implements Value {}

    /**
     * TREAT of a path, with a path behind it: that is of a variable which is the same object, and of the class below.
     * Where it isn't of that class, no test with it is true.
     */
    record Downcast(int at, Reference of, Reference path) implements Value {}

    /** A sum that is divided by a count, as AVG is had. */
    record Average(int at, Value sum, Value count) implements Value {}

    /** A condition (chapter 4.6). */
    sealed interface Condition extends Expression permits Or, And, Not, Compare, Quantified, Between, In, InSelect,
            InParameter, Like, IsNull, IsEmpty, Member, Exists, Always, TypeIs, ByRows {}

    /** One of them is true. */
    record Or(int at, List<Condition> parts) implements Condition {}

    /** All of them are true. */
    record And(int at, List<Condition> parts) implements Condition {}

    /** It is false. */
    record Not(int at, Condition condition) implements Condition {}

    /** Two values compared, by one of {@code = <> < <= > >=}. */
    record Compare(int at, String sign, Value left, Value right) implements Condition {}

    /** A value compared with ALL or with ANY of a subquery. */
    record Quantified(int at, String sign, Value left, boolean isAll, Select select) implements Condition {}

    /** BETWEEN. */
    record Between(int at, boolean isNot, Value value, Value low, Value high) implements Condition {}

    /** IN of values. */
    record In(int at, boolean isNot, Value value, List<Value> values) implements Condition {}

    /** IN of a subquery. */
    record InSelect(int at, boolean isNot, Value value, Select select) implements Condition {}

    /** IN of a parameter that is a collection. */
    record InParameter(int at, boolean isNot, Value value, Parameter list) implements Condition {}

    /** LIKE; the escape character may be null. */
    record Like(int at, boolean isNot, Value value, Value pattern, Value escape) implements Condition {}

    /** IS NULL. */
    record IsNull(int at, boolean isNot, Value value) implements Condition {}

    /** IS EMPTY. */
    record IsEmpty(int at, boolean isNot, Value path) implements Condition {}

    /** MEMBER OF. */
    record Member(int at, boolean isNot, Value value, Value path) implements Condition {}

    /** EXISTS. */
    record Exists(int at, boolean isNot, Select select) implements Condition {}

    /** What the door decides for each row, since the program can't say a block in it. */
    record ByRows(int at, Condition condition) implements Condition {}

    /** What is always true, or never. */
    record Always(int at, boolean isTrue) implements Condition {}

    /** The class of a variable is one of these, entities or parameters. */
    record TypeIs(int at, boolean isNot, Value of, List<Value> classes) implements Condition {}
}
