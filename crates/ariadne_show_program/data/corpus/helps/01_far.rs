fn main() {
    let sum = 5u8 + 1i32;
    let r: Result<u8, u8> = Ok(sum);
    r.len();
}
