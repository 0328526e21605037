import java.util.List;

class Sums {
    int wrong = "x";

    List plain() {
        return null;
    }

    int late = "größe";
}
