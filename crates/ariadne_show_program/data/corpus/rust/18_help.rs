struct Fruit;

fn count(fruit: &HashMap<u8, Fruit>) {
    let map = 1;
    map += fruit.len();
}

fn main() {
    println!("{:?}", Fruit);
    let entry: Option<Entry> = None;
    let text: &mut String = &String::new();
}
