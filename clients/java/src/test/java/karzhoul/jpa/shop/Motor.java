package karzhoul.jpa.shop;

import jakarta.persistence.Entity;
import jakarta.persistence.FetchType;
import jakarta.persistence.GeneratedValue;
import jakarta.persistence.Id;
import jakarta.persistence.OneToOne;

/** Knows its car by the inverse side. */
@Entity
public class Motor {
    @Id
    @GeneratedValue
    private Integer id;

    private double power;

    @OneToOne(mappedBy = "motor", fetch = FetchType.LAZY)
    private Car car;

    protected Motor() {}

    public Motor(double power) {
        this.power = power;
    }

    public Integer getId() {
        return id;
    }

    public double getPower() {
        return power;
    }

    public void setPower(double power) {
        this.power = power;
    }

    public Car getCar() {
        return car;
    }

    void setCar(Car car) {
        this.car = car;
    }
}
