fn main() {
    let x = 3u8;
    let y = 4usize;
    if x as usize < y {}
}
