use std::rc::Rc;

fn main() {
    let mut pears = 3;
    let (mut größe, dates) = (1, 2);
    while (pears > größe) {}
    match dates {
        rest => {}
    }
    loop {
        println!("{pears}");
        return;
    };
}
