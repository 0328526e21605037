//! Values that are printed in a colour.

use crate::color::Color;
use std::fmt::{Display, Formatter, Result};

/// Colours for whatever can be printed.
///
/// ```
/// use ariadne::{Color, Fmt};
///
/// assert_eq!("warning".fg(Color::Yellow).to_string(), "\x1b[33mwarning\x1b[0m");
/// ```
pub trait Fmt: Sized {
    /// The value with its characters in a colour, if there is one.
    fn fg<C: Into<Option<Color>>>(self, color: C) -> Foreground<Self>
    where
        Self: Display,
    {
        Foreground(self, color.into())
    }

    /// The value with a colour behind its characters, if there is one.
    fn bg<C: Into<Option<Color>>>(self, color: C) -> Background<Self>
    where
        Self: Display,
    {
        Background(self, color.into())
    }
}

impl<T: Display> Fmt for T {}

/// A value that is printed in a colour.
#[derive(Clone, Copy, Debug)]
pub struct Foreground<T>(T, Option<Color>);

/// A value that is printed over a colour.
#[derive(Clone, Copy, Debug)]
pub struct Background<T>(T, Option<Color>);

impl<T: Display> Display for Foreground<T> {
    fn fmt(&self, f: &mut Formatter<'_>) -> Result {
        write_painted(f, &self.0, self.1, 0)
    }
}

impl<T: Display> Display for Background<T> {
    fn fmt(&self, f: &mut Formatter<'_>) -> Result {
        write_painted(f, &self.0, self.1, 10)
    }
}

/// Writes a value between the escapes of its colour, if it has one. What is behind the characters has
/// numbers that are greater by 10.
fn write_painted<T: Display>(f: &mut Formatter<'_>, value: &T, color: Option<Color>, plus: u8) -> Result {
    let Some(color) = color else {
        return write!(f, "{value}");
    };
    match color {
        Color::Fixed(number) => write!(f, "\x1b[{};5;{number}m", 38 + plus)?,
        Color::Rgb(red, green, blue) => write!(f, "\x1b[{};2;{red};{green};{blue}m", 38 + plus)?,
        _ => write!(f, "\x1b[{}m", escape_number(color) + plus)?,
    }
    write!(f, "{value}\x1b[0m")
}

/// The number in the escape of a colour that has a name.
fn escape_number(color: Color) -> u8 {
    match color.place() {
        Some(place @ 1..=8) => 29 + place,
        Some(place @ 9..=16) => 81 + place,
        _ => 39,
    }
}
