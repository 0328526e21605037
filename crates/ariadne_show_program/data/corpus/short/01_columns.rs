fn main() {
    let 漢字: i32 = "größe"; let é = 1;
    let s = "漢字漢字"; let n: u8 = s;
    /* größe */ missing();
}
