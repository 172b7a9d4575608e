package jakarta.persistence;

import java.lang.annotation.ElementType;
import java.lang.annotation.Repeatable;
import java.lang.annotation.Retention;
import java.lang.annotation.RetentionPolicy;
import java.lang.annotation.Target;

/** As version 3.1 of the standard has it: the default of {@code converter} is another one there. */
@Repeatable(Converts.class)
@Target({ElementType.METHOD, ElementType.FIELD, ElementType.TYPE})
@Retention(RetentionPolicy.RUNTIME)
public @interface Convert {
    @SuppressWarnings("rawtypes")
    Class<? extends AttributeConverter> converter() default AttributeConverter.class;

    String attributeName() default "";

    boolean disableConversion() default false;
}
