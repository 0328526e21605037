mod fruit {
    pub struct Pear;
    pub enum Size<T> {
        Big(T),
        Small(T),
    }
    pub fn weigh() {
        println!("{:?}", Pear);
        let size: Size<u8> = 3u8;
        let pears = HashMap::new();
        let most = Error;
    }
}
fn main() {}
