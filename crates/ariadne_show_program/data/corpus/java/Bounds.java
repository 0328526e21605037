import java.util.List;

class Bounds {
    List<Integer> list = List.of("a", "b");

    void add(List raw) {
        raw.add("x");
    }
}
