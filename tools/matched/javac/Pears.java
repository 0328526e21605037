import java.util.List;

class Pears {
    int weigh(String pear) {
        /* 🍐 é */ return pear;
    }

	List raw = null;
    int light = wieght;
}
