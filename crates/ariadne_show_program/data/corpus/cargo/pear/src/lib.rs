pub fn ripe(days: u32) -> bool {
    let late = days > 5;
    if days > 3 {
        return true;
        println!("never");
    }
    false
}
