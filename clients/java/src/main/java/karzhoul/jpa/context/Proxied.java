package karzhoul.jpa.context;

/** What the classes of proxies are beside their entity: not for applications. */
public interface Proxied extends karzhoul.jpa.model.ProxyClass {
    /** What the door knows of the instance. */
    Object karzhoul$entry();

    void karzhoul$entry(Object entry);
}
