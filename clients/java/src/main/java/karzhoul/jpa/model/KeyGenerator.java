package karzhoul.jpa.model;

import jakarta.persistence.GenerationType;
import jakarta.persistence.SequenceGenerator;
import jakarta.persistence.TableGenerator;

/**
 * How a key says that it is generated (chapters 11.1.20, 11.1.48 and 11.1.50).
 *
 * @param name the generator's, or empty
 * @param sequence what defines it, or null
 * @param table what defines it, or null
 */
record KeyGenerator(GenerationType strategy, String name, SequenceGenerator sequence, TableGenerator table) {}
