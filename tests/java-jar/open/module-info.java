module shop {
    requires jakarta.persistence;
    requires karzhoul.jpa;

    opens shop;
}
