fn need(_: &'static str) {}
fn call(x: &str) { need(x) }
struct Line<'a> { text: &'a str }
impl<'a> Line<'a> { fn with<'漢>(&'漢 self, other: &'漢 str) -> &'a str { other } }
fn main() {}
