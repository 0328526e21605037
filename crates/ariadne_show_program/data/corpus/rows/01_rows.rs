#[deprecated(note = "old\n  and long\nuse `ripe`")]
pub fn old() {}

pub fn ripe() -> i32 { old(); old(); "é" }

compile_error!("first row\nsecond row\n\n  fourth: row");
