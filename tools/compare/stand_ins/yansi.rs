//! What the original crate uses of `yansi` 1: colours, and text in a colour. As there, nothing is
//! allocated.

use std::fmt::{Display, Formatter, Result};

#[derive(Clone, Copy, Debug, PartialEq, Eq, Hash, PartialOrd, Ord)]
pub enum Color {
    Primary,
    Fixed(u8),
    Rgb(u8, u8, u8),
    Black,
    Red,
    Green,
    Yellow,
    Blue,
    Magenta,
    Cyan,
    White,
    BrightBlack,
    BrightRed,
    BrightGreen,
    BrightYellow,
    BrightBlue,
    BrightMagenta,
    BrightCyan,
    BrightWhite,
}

impl Color {
    /// Writes the numbers of its escape, each of them greater by `more`.
    fn write(self, f: &mut Formatter, more: u8) -> Result {
        let number = match self {
            Color::Fixed(number) => return write!(f, "{};5;{number}", 38 + more),
            Color::Rgb(red, green, blue) => return write!(f, "{};2;{red};{green};{blue}", 38 + more),
            Color::Primary => 39,
            Color::Black => 30,
            Color::Red => 31,
            Color::Green => 32,
            Color::Yellow => 33,
            Color::Blue => 34,
            Color::Magenta => 35,
            Color::Cyan => 36,
            Color::White => 37,
            Color::BrightBlack => 90,
            Color::BrightRed => 91,
            Color::BrightGreen => 92,
            Color::BrightYellow => 93,
            Color::BrightBlue => 94,
            Color::BrightMagenta => 95,
            Color::BrightCyan => 96,
            Color::BrightWhite => 97,
        };
        write!(f, "{}", number + more)
    }
}

/// A value in a colour, if it has one, and what is added to the numbers of its escape.
pub struct Painted<T> {
    value: T,
    color: Option<(Color, u8)>,
}

pub trait Paint: Sized {
    fn new(self) -> Painted<Self> {
        Painted { value: self, color: None }
    }
}

impl<T> Paint for T {}

impl<T> Painted<T> {
    pub fn fg(self, color: Color) -> Self {
        Painted { color: Some((color, 0)), ..self }
    }

    pub fn bg(self, color: Color) -> Self {
        Painted { color: Some((color, 10)), ..self }
    }
}

impl<T: Display> Display for Painted<T> {
    fn fmt(&self, f: &mut Formatter) -> Result {
        let Some((color, more)) = self.color else {
            return self.value.fmt(f);
        };
        f.write_str("\x1b[")?;
        color.write(f, more)?;
        f.write_str("m")?;
        self.value.fmt(f)?;
        f.write_str("\x1b[0m")
    }
}
