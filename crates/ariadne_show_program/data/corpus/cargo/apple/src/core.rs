fn never_called(
    first: u32,
    second: u32,
) -> u32 {
    let mut kept = first;
    kept
}
