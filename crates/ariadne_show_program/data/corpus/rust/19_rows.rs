const SIZE: usize = panic!("zero\n\nnot allowed");

#[deprecated(note = "grün\n  very old")]
fn old() {}

fn main() {
    old();
    let _sizes = [0u8; SIZE];
}
