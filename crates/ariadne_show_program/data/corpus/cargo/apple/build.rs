fn main() {
    let never = 1;
    println!("cargo:warning=from the build script");
}
