import java.util.List;

class Apples {
    List<Integer> apples = List.of("one");
}
