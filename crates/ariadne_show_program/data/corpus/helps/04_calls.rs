macro_rules! most {
    ($a:expr) => { $a };
    ($a:expr, $($b:expr),+) => {{ let a: i32 = $a; let b: i32 = "two"; most!($($b),+) }};
}
fn main() {
    let pears: i32 = most!(1, 2, 3);
}
