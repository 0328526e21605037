#[test]
fn ripens() {
    let day: u8 = "漢字".len();
    assert!(pear::ripe(4));
}
