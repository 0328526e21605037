#[deprecated(note = "old\nuse `ripe`")]
pub fn old() {}

#[deprecated(note = "Fresh ones are sold\nelsewhere\n\nand cheaper")]
pub fn fresh() {}

pub fn ripe() { old(); fresh() }
