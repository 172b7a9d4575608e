package wide;

import jakarta.persistence.AttributeConverter;
import jakarta.persistence.Converter;

/** Keeps stars as so many marks. */
@Converter
public class Stars implements AttributeConverter<Integer, String> {
    @Override
    public String convertToDatabaseColumn(Integer stars) {
        return stars == null ? null : "*".repeat(stars);
    }

    @Override
    public Integer convertToEntityAttribute(String kept) {
        return kept == null ? null : kept.length();
    }
}
