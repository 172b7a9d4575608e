package karzhoul.jpa.query;

import java.util.ArrayList;
import java.util.List;
import java.util.function.Function;
import karzhoul.jpa.query.Tree.Aggregate;
import karzhoul.jpa.query.Tree.Always;
import karzhoul.jpa.query.Tree.And;
import karzhoul.jpa.query.Tree.Arithmetic;
import karzhoul.jpa.query.Tree.Asked;
import karzhoul.jpa.query.Tree.Average;
import karzhoul.jpa.query.Tree.Between;
import karzhoul.jpa.query.Tree.ByRows;
import karzhoul.jpa.query.Tree.Call;
import karzhoul.jpa.query.Tree.Case;
import karzhoul.jpa.query.Tree.Compare;
import karzhoul.jpa.query.Tree.Condition;
import karzhoul.jpa.query.Tree.Construct;
import karzhoul.jpa.query.Tree.Derived;
import karzhoul.jpa.query.Tree.Downcast;
import karzhoul.jpa.query.Tree.Embedded;
import karzhoul.jpa.query.Tree.Exists;
import karzhoul.jpa.query.Tree.Expression;
import karzhoul.jpa.query.Tree.In;
import karzhoul.jpa.query.Tree.InParameter;
import karzhoul.jpa.query.Tree.InSelect;
import karzhoul.jpa.query.Tree.IsEmpty;
import karzhoul.jpa.query.Tree.IsNull;
import karzhoul.jpa.query.Tree.Item;
import karzhoul.jpa.query.Tree.Join;
import karzhoul.jpa.query.Tree.Key;
import karzhoul.jpa.query.Tree.Like;
import karzhoul.jpa.query.Tree.Member;
import karzhoul.jpa.query.Tree.Not;
import karzhoul.jpa.query.Tree.Or;
import karzhoul.jpa.query.Tree.Quantified;
import karzhoul.jpa.query.Tree.Range;
import karzhoul.jpa.query.Tree.Reference;
import karzhoul.jpa.query.Tree.Scalar;
import karzhoul.jpa.query.Tree.Select;
import karzhoul.jpa.query.Tree.Signed;
import karzhoul.jpa.query.Tree.Source;
import karzhoul.jpa.query.Tree.Treated;
import karzhoul.jpa.query.Tree.TypeIs;
import karzhoul.jpa.query.Tree.TypeOf;
import karzhoul.jpa.query.Tree.Value;
import karzhoul.jpa.query.Tree.When;

/** A pass over a tree that makes another one; what a pass doesn't override stays as it is. */
abstract class Rewriting {
    Value value(Value value) {
        return valueWithin(value);
    }

    Condition condition(Condition condition) {
        return conditionWithin(condition);
    }

    Select select(Select select) {
        return selectWithin(select);
    }

    Source source(Source source) {
        return sourceWithin(source);
    }

    final Condition conditionOrNull(Condition condition) {
        return condition == null ? null : condition(condition);
    }

    private Value valueOrNull(Value value) {
        return value == null ? null : value(value);
    }

    final List<Value> values(List<Value> values) {
        return each(values, this::value);
    }

    static <T> List<T> each(List<T> all, Function<T, T> change) {
        List<T> changed = new ArrayList<>(all.size());
        for (T one : all) {
            changed.add(change.apply(one));
        }
        return changed;
    }

    /** The value with its parts passed over. */
    final Value valueWithin(Value value) {
        if (value instanceof Signed of) {
            return new Signed(of.at(), of.isMinus(), value(of.value()));
        } else if (value instanceof Arithmetic of) {
            return new Arithmetic(of.at(), of.sign(), value(of.left()), value(of.right()));
        } else if (value instanceof Call of) {
            return new Call(of.at(), of.function(), values(of.arguments()));
        } else if (value instanceof Aggregate of) {
            return new Aggregate(of.at(), of.kind(), of.isDistinct(), value(of.operand()));
        } else if (value instanceof Case of) {
            return new Case(of.at(), valueOrNull(of.operand()), each(of.whens(), this::when), value(of.otherwise()));
        } else if (value instanceof Scalar of) {
            return new Scalar(of.at(), select(of.select()));
        } else if (value instanceof TypeOf of) {
            return new TypeOf(of.at(), value(of.operand()));
        } else if (value instanceof Treated of) {
            return new Treated(of.at(), value(of.path()), of.entity(), of.names());
        } else if (value instanceof Construct of) {
            return new Construct(of.at(), of.className(), each(of.arguments(), this::item));
        } else if (value instanceof Asked of) {
            return of;
        } else if (value instanceof Downcast of) {
            return new Downcast(of.at(), (Reference) value(of.of()), of.path());
        } else if (value instanceof Embedded of) {
            return new Embedded(of.at(), of.java(), of.names(), each(of.parts(), part -> (Reference) value(part)));
        } else if (value instanceof Average of) {
            return new Average(of.at(), value(of.sum()), value(of.count()));
        }
        return value;
    }

    private When when(When when) {
        Expression test = when.test() instanceof Condition c ? condition(c) : value((Value) when.test());
        return new When(test, value(when.then()));
    }

    final Item item(Item item) {
        return new Item(value(item.value()), item.name());
    }

    /** The condition with its parts passed over. */
    final Condition conditionWithin(Condition condition) {
        if (condition instanceof Or of) {
            return new Or(of.at(), each(of.parts(), this::condition));
        } else if (condition instanceof And of) {
            return new And(of.at(), each(of.parts(), this::condition));
        } else if (condition instanceof Not of) {
            return new Not(of.at(), condition(of.condition()));
        } else if (condition instanceof Compare of) {
            return new Compare(of.at(), of.sign(), value(of.left()), value(of.right()));
        } else if (condition instanceof Between of) {
            return new Between(of.at(), of.isNot(), value(of.value()), value(of.low()), value(of.high()));
        } else if (condition instanceof In of) {
            return new In(of.at(), of.isNot(), value(of.value()), values(of.values()));
        } else if (condition instanceof InParameter of) {
            return new InParameter(of.at(), of.isNot(), value(of.value()), of.list());
        } else if (condition instanceof Like of) {
            return new Like(of.at(), of.isNot(), value(of.value()), value(of.pattern()), valueOrNull(of.escape()));
        } else if (condition instanceof IsNull of) {
            return new IsNull(of.at(), of.isNot(), value(of.value()));
        } else if (condition instanceof IsEmpty of) {
            return new IsEmpty(of.at(), of.isNot(), value(of.path()));
        } else if (condition instanceof Member of) {
            return new Member(of.at(), of.isNot(), value(of.value()), value(of.path()));
        } else if (condition instanceof TypeIs of) {
            return new TypeIs(of.at(), of.isNot(), value(of.of()), values(of.classes()));
        }
        return blockWithin(condition);
    }

    private Condition blockWithin(Condition condition) {
        if (condition instanceof Quantified of) {
            return new Quantified(of.at(), of.sign(), value(of.left()), of.isAll(), select(of.select()));
        } else if (condition instanceof InSelect of) {
            return new InSelect(of.at(), of.isNot(), value(of.value()), select(of.select()));
        } else if (condition instanceof Exists of) {
            return new Exists(of.at(), of.isNot(), select(of.select()));
        } else if (condition instanceof ByRows of) {
            return new ByRows(of.at(), condition(of.condition()));
        }
        return (Always) condition;
    }

    /** The block with its clauses passed over, FROM first. */
    final Select selectWithin(Select select) {
        List<Source> sources = each(select.sources(), this::source);
        return new Select(select.at(), select.isDistinct(), each(select.items(), this::item), sources,
                conditionOrNull(select.where()), values(select.groups()), conditionOrNull(select.having()),
                each(select.order(), key -> new Key(value(key.value()), key.isDescending())));
    }

    final Source sourceWithin(Source source) {
        if (source instanceof Join join) {
            return new Join(join.at(), join.isLeft(), join.isFetch(), value(join.path()), join.name(), join.variable(),
                    conditionOrNull(join.on()));
        } else if (source instanceof Derived derived) {
            return new Derived(derived.at(), derived.isMember(), value(derived.path()), derived.name(),
                    derived.variable());
        }
        return (Range) source;
    }
}
