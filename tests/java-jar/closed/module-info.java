module shop {
    requires jakarta.persistence;
}
