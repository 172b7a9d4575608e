package karzhoul.jpa.shop;

import jakarta.persistence.CascadeType;
import jakarta.persistence.Entity;
import jakarta.persistence.FetchType;
import jakarta.persistence.GeneratedValue;
import jakarta.persistence.Id;
import jakarta.persistence.OneToOne;
import jakarta.persistence.Version;

/** Owns its motor. */
@Entity
public class Car {
    @Id
    @GeneratedValue
    private Long id;

    @Version
    private Long version;

    @OneToOne(cascade = CascadeType.ALL, orphanRemoval = true, fetch = FetchType.LAZY)
    private Motor motor;

    protected Car() {}

    public Car(Motor motor) {
        setMotor(motor);
    }

    public Long getId() {
        return id;
    }

    public Long getVersion() {
        return version;
    }

    public Motor getMotor() {
        return motor;
    }

    public void setMotor(Motor motor) {
        this.motor = motor;
        if (motor != null) {
            motor.setCar(this);
        }
    }
}
