use apple::weight;

fn main() {
    let mut pears = vec![1, 2, 3];
    let first = &pears[0];
    pears.push(weight("one"));
    println!("{first}", 2);
}
