import java.util.List;
import java.util.ArrayList;

class Types {
    interface Shape { int area(int side, String name); }
    void f(int a) {}
    void f(String a, int b) {}
    int x = "a";
    String s = "漢字 é"; int y = s;
	int tabbed(	String it) { return it; }
    void call() {
        missing(1,
                2);
        new Types(3);
        f(1.5, "b");
        Shape shape = (a, b) -> b;
        List raw = new ArrayList();
        raw.add("x");
        List<String> names = (List<String>) (Object) raw;
        Thread.currentThread().stop();
        unknown.field = new Missing();
    }
    int none() { }
}
