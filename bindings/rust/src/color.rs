//! Colours.

/// A colour that a terminal can show.
#[derive(Clone, Copy, Debug, Default, PartialEq, Eq, PartialOrd, Ord, Hash)]
pub enum Color {
    /// The terminal's own colour.
    #[default]
    Primary,
    /// A colour of the 256-colour palette, by its number.
    Fixed(u8),
    /// Red, green and blue.
    Rgb(u8, u8, u8),
    /// Black.
    Black,
    /// Red.
    Red,
    /// Green.
    Green,
    /// Yellow.
    Yellow,
    /// Blue.
    Blue,
    /// Magenta.
    Magenta,
    /// Cyan.
    Cyan,
    /// White.
    White,
    /// Bright black, a dark grey on most terminals.
    BrightBlack,
    /// Bright red.
    BrightRed,
    /// Bright green.
    BrightGreen,
    /// Bright yellow.
    BrightYellow,
    /// Bright blue.
    BrightBlue,
    /// Bright magenta.
    BrightMagenta,
    /// Bright cyan.
    BrightCyan,
    /// Bright white.
    BrightWhite,
}

impl Color {
    /// The colour's place among those that have names: 0 is the terminal's own, 1 to 8 are black to white,
    /// and 9 to 16 the bright ones.
    pub(crate) const fn place(self) -> Option<u8> {
        Some(match self {
            Color::Primary => 0,
            Color::Black => 1,
            Color::Red => 2,
            Color::Green => 3,
            Color::Yellow => 4,
            Color::Blue => 5,
            Color::Magenta => 6,
            Color::Cyan => 7,
            Color::White => 8,
            Color::BrightBlack => 9,
            Color::BrightRed => 10,
            Color::BrightGreen => 11,
            Color::BrightYellow => 12,
            Color::BrightBlue => 13,
            Color::BrightMagenta => 14,
            Color::BrightCyan => 15,
            Color::BrightWhite => 16,
            Color::Fixed(_) | Color::Rgb(..) => return None,
        })
    }
}

impl From<u8> for Color {
    fn from(number: u8) -> Color {
        Color::Fixed(number)
    }
}

impl From<(u8, u8, u8)> for Color {
    fn from((red, green, blue): (u8, u8, u8)) -> Color {
        Color::Rgb(red, green, blue)
    }
}

/// A generator of colours, one after another. One that starts as another did returns the same colours.
///
/// ```
/// use ariadne::{Color, ColorGenerator};
///
/// let mut colors = ColorGenerator::new();
/// assert_eq!([colors.next(), colors.next()], [Color::Fixed(201), Color::Fixed(155)]);
/// ```
pub struct ColorGenerator {
    /// For red, green and blue.
    numbers: [u16; 3],
    /// In thousandths, at most 1000.
    brightness: u64,
}

impl ColorGenerator {
    /// A generator with the usual start.
    pub const fn new() -> ColorGenerator {
        ColorGenerator { numbers: [30000, 15000, 35000], brightness: 500 }
    }

    /// A generator that starts at these numbers, for red, green and blue. The brightness goes from 0, where
    /// a colour may be black, to 1, where each is white; it counts in thousandths.
    pub const fn from_state(state: [u16; 3], min_brightness: f32) -> ColorGenerator {
        let brightness = (min_brightness.clamp(0.0, 1.0) * 1000.0 + 0.5) as u64;
        ColorGenerator { numbers: state, brightness }
    }

    /// The next colour, of the 256-colour palette.
    #[allow(clippy::should_implement_trait)]
    pub const fn next(&mut self) -> Color {
        let (mut sum, mut channel) = (0, 0);
        while channel < 3 {
            let step = 40503 * (4 * channel as u32 + 1130);
            self.numbers[channel] = ((self.numbers[channel] as u32 + step) % 65536) as u16;
            sum += [180, 30, 5][channel] * self.raised(channel);
            channel += 1;
        }
        Color::Fixed(16 + (sum / 65_535_000) as u8)
    }

    /// The number of a channel, raised by the brightness, a thousand times as large.
    const fn raised(&self, channel: usize) -> u64 {
        self.numbers[channel] as u64 * (1000 - self.brightness) + 65535 * self.brightness
    }
}

impl Default for ColorGenerator {
    fn default() -> ColorGenerator {
        ColorGenerator::new()
    }
}
