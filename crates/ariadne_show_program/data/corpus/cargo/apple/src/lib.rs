use std::collections::HashMap;
mod core;

macro_rules! twice {
    ($it:expr) => {
        $it + $it + { let unused = 1; 0 }
    };
}

/// What an apple weighs.
pub fn weight(grüße: u32) -> u32 {
	let s = "漢字"; let wide = 2;
    twice!(grüße)
}

#[cfg(test)]
mod tests {
    use super::*;

    #[test]
    fn weighs() {
        let in_tests = weight(1);
    }
}
