package karzhoul.jpa.criteria;

import jakarta.persistence.criteria.Expression;
import jakarta.persistence.criteria.ParameterExpression;
import java.sql.Date;
import java.sql.Time;
import java.sql.Timestamp;
import java.time.LocalDate;
import java.time.LocalDateTime;
import java.time.LocalTime;
import java.util.Collection;
import java.util.List;
import java.util.Map;
import java.util.Set;
import karzhoul.jpa.query.Function;
import karzhoul.jpa.query.Tree.Now;

/** Texts, times, literals, parameters and choices (chapters 4.7.2.1, 4.7.2.3 and 4.7.10). */
abstract class ValueBuilder extends NumberBuilder {
    // ---- texts

    @Override
    public Expression<String> concat(Expression<String> x, Expression<String> y) {
        return call(String.class, Function.CONCAT, x, y);
    }

    @Override
    public Expression<String> concat(Expression<String> x, String y) {
        return call(String.class, Function.CONCAT, x, y);
    }

    @Override
    public Expression<String> concat(String x, Expression<String> y) {
        return call(String.class, Function.CONCAT, x, y);
    }

    @Override
    public Expression<String> substring(Expression<String> x, Expression<Integer> from) {
        return call(String.class, Function.SUBSTRING, x, from);
    }

    @Override
    public Expression<String> substring(Expression<String> x, int from) {
        return call(String.class, Function.SUBSTRING, x, from);
    }

    @Override
    public Expression<String> substring(Expression<String> x, Expression<Integer> from, Expression<Integer> length) {
        return call(String.class, Function.SUBSTRING, x, from, length);
    }

    @Override
    public Expression<String> substring(Expression<String> x, int from, int length) {
        return call(String.class, Function.SUBSTRING, x, from, length);
    }

    private static Expression<String> trimmed(Trimspec side, Object character, Expression<String> x) {
        return new Computed<>(String.class, List.of(Term.ofValue(character), Term.of(x)), Computed.trim(side.name()));
    }

    @Override
    public Expression<String> trim(Expression<String> x) {
        return trimmed(Trimspec.BOTH, " ", x);
    }

    @Override
    public Expression<String> trim(Trimspec side, Expression<String> x) {
        return trimmed(side, " ", x);
    }

    @Override
    public Expression<String> trim(Expression<Character> character, Expression<String> x) {
        return trimmed(Trimspec.BOTH, character, x);
    }

    @Override
    public Expression<String> trim(Trimspec side, Expression<Character> character, Expression<String> x) {
        return trimmed(side, character, x);
    }

    @Override
    public Expression<String> trim(char character, Expression<String> x) {
        return trimmed(Trimspec.BOTH, character, x);
    }

    @Override
    public Expression<String> trim(Trimspec side, char character, Expression<String> x) {
        return trimmed(side, character, x);
    }

    @Override
    public Expression<String> lower(Expression<String> x) {
        return call(String.class, Function.LOWER, x);
    }

    @Override
    public Expression<String> upper(Expression<String> x) {
        return call(String.class, Function.UPPER, x);
    }

    @Override
    public Expression<Integer> length(Expression<String> x) {
        return call(Integer.class, Function.LENGTH, x);
    }

    /** The place of a pattern in a text; in the language the pattern stands first. */
    @Override
    public Expression<Integer> locate(Expression<String> x, Expression<String> pattern) {
        return call(Integer.class, Function.LOCATE, pattern, x);
    }

    @Override
    public Expression<Integer> locate(Expression<String> x, String pattern) {
        return call(Integer.class, Function.LOCATE, pattern, x);
    }

    @Override
    public Expression<Integer> locate(Expression<String> x, Expression<String> pattern, Expression<Integer> from) {
        return call(Integer.class, Function.LOCATE, pattern, x, from);
    }

    @Override
    public Expression<Integer> locate(Expression<String> x, String pattern, int from) {
        return call(Integer.class, Function.LOCATE, pattern, x, from);
    }

    // ---- times

    private static <X> Expression<X> now(Class<X> type, Now.Kind kind) {
        return new Computed<>(type, List.of(), Computed.now(kind));
    }

    @Override
    public Expression<Date> currentDate() {
        return now(Date.class, Now.Kind.CURRENT_DATE);
    }

    @Override
    public Expression<Time> currentTime() {
        return now(Time.class, Now.Kind.CURRENT_TIME);
    }

    @Override
    public Expression<Timestamp> currentTimestamp() {
        return now(Timestamp.class, Now.Kind.CURRENT_TIMESTAMP);
    }

    @Override
    public Expression<LocalDate> localDate() {
        return now(LocalDate.class, Now.Kind.LOCAL_DATE);
    }

    @Override
    public Expression<LocalTime> localTime() {
        return now(LocalTime.class, Now.Kind.LOCAL_TIME);
    }

    @Override
    public Expression<LocalDateTime> localDateTime() {
        return now(LocalDateTime.class, Now.Kind.LOCAL_DATETIME);
    }

    // ---- literals and parameters

    @Override
    public <T> Expression<T> literal(T value) {
        if (value == null) {
            throw new IllegalArgumentException("a literal is null; nullLiteral makes one");
        }
        return new Constant<>(value);
    }

    @Override
    public <T> Expression<T> nullLiteral(Class<T> type) {
        return new Constant<>(type, null);
    }

    @Override
    public <T> ParameterExpression<T> parameter(Class<T> type) {
        return new ParameterOf<>(type, null);
    }

    @Override
    public <T> ParameterExpression<T> parameter(Class<T> type, String name) {
        return new ParameterOf<>(type, name);
    }

    // ---- choices

    @Override
    public <Y> Expression<Y> coalesce(Expression<? extends Y> x, Expression<? extends Y> y) {
        return this.<Y>coalesce().value(x).value(y);
    }

    @Override
    public <Y> Expression<Y> coalesce(Expression<? extends Y> x, Y y) {
        return this.<Y>coalesce().value(x).value(y);
    }

    @Override
    public <T> Coalesce<T> coalesce() {
        return new Cases.CoalesceOf<>();
    }

    @Override
    public <Y> Expression<Y> nullif(Expression<Y> x, Expression<?> y) {
        return call(x.getJavaType(), Function.NULLIF, x, y);
    }

    @Override
    public <Y> Expression<Y> nullif(Expression<Y> x, Y y) {
        return call(x.getJavaType(), Function.NULLIF, x, y);
    }

    @Override
    public <C, R> SimpleCase<C, R> selectCase(Expression<? extends C> operand) {
        return new Cases.Simple<>(operand);
    }

    @Override
    public <R> Case<R> selectCase() {
        return new Cases.General<>();
    }

    /** Refused: an IllegalArgumentException, since there is no database with functions of its own (chapter 4.7.3). */
    @Override
    public <T> Expression<T> function(String name, Class<T> type, Expression<?>... arguments) {
        throw new IllegalArgumentException("FUNCTION isn't served: there is no database with functions of its own, as "
                + name);
    }

    // ---- collections

    @Override
    public <C extends Collection<?>> Expression<Integer> size(Expression<C> collection) {
        return call(Integer.class, Function.SIZE, collection);
    }

    @Override
    public <C extends Collection<?>> Expression<Integer> size(C collection) {
        return literal(collection.size());
    }

    /** The values of a map that isn't one of an entity's are no expression: an IllegalArgumentException. */
    @Override
    public <V, M extends Map<?, V>> Expression<Collection<V>> values(M map) {
        throw noMaps();
    }

    /** The keys of a map that isn't one of an entity's are no expression: an IllegalArgumentException. */
    @Override
    public <K, M extends Map<K, ?>> Expression<Set<K>> keys(M map) {
        throw noMaps();
    }

    static IllegalArgumentException noMaps() {
        return new IllegalArgumentException("maps of entities aren't kept; give a list of the values to in(..)");
    }
}
