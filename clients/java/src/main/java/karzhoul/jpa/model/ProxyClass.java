package karzhoul.jpa.model;

/** What classes that stand below an entity's class in its place have: any other class below it is no entity. */
public interface ProxyClass {}
