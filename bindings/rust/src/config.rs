//! How a report is drawn.

use std::fmt::{self, Debug, Formatter};

/// Where the arrow of a label within a line is attached to it.
#[derive(Clone, Copy, Debug, PartialEq, Eq)]
pub enum LabelAttach {
    /// At its first character.
    Start,
    /// In its middle, or as near as can be.
    Middle,
    /// At its last character.
    End,
}

/// What the strokes are drawn with.
#[derive(Clone, Copy, Debug, PartialEq, Eq)]
pub enum CharSet {
    /// Characters that most terminals have.
    Unicode,
    /// Characters of ASCII alone.
    Ascii,
}

/// What offsets count.
#[derive(Clone, Copy, Debug, PartialEq, Eq)]
pub enum IndexType {
    /// Bytes.
    Byte,
    /// Characters.
    Char,
}

/// How a report is drawn.
#[derive(Clone, Copy, PartialEq, Eq)]
pub struct Config {
    pub(crate) cross_gap: bool,
    pub(crate) label_attach: LabelAttach,
    pub(crate) compact: bool,
    pub(crate) underlines: bool,
    pub(crate) lone_underlines: bool,
    pub(crate) multiline_arrows: bool,
    pub(crate) color: bool,
    pub(crate) context_lines: usize,
    pub(crate) width: usize,
    pub(crate) tab_width: usize,
    pub(crate) char_set: CharSet,
    pub(crate) index_type: IndexType,
    pub(crate) safe: bool,
}

impl Config {
    /// The usual configuration.
    pub const fn new() -> Config {
        Config {
            cross_gap: true,
            label_attach: LabelAttach::Middle,
            compact: false,
            underlines: true,
            lone_underlines: false,
            multiline_arrows: true,
            color: true,
            context_lines: 0,
            width: 0,
            tab_width: 4,
            char_set: CharSet::Unicode,
            index_type: IndexType::Char,
            safe: false,
        }
    }

    /// Whether there is a gap where strokes cross. Without one a crossing is drawn. Usually true.
    pub const fn with_cross_gap(mut self, cross_gap: bool) -> Config {
        self.cross_gap = cross_gap;
        self
    }

    /// Where the arrows of labels within a line are attached. Usually in the middle.
    pub const fn with_label_attach(mut self, label_attach: LabelAttach) -> Config {
        self.label_attach = label_attach;
        self
    }

    /// Whether rows that only make room are left away. Usually false.
    pub const fn with_compact(mut self, compact: bool) -> Config {
        self.compact = compact;
        self
    }

    /// Whether labels within a line are underlined. Usually true.
    pub const fn with_underlines(mut self, underlines: bool) -> Config {
        self.underlines = underlines;
        self
    }

    /// Whether labels within a line are underlined also where no label of the line has a message.
    /// Usually false.
    pub const fn with_lone_underlines(mut self, lone_underlines: bool) -> Config {
        self.lone_underlines = lone_underlines;
        self
    }

    /// Whether labels over several lines have arrow heads. Usually true.
    pub const fn with_multiline_arrows(mut self, multiline_arrows: bool) -> Config {
        self.multiline_arrows = multiline_arrows;
        self
    }

    /// Whether the picture has colours. Usually true. Without them no colour of a label or a kind is drawn,
    /// whenever it was given; texts that are painted stay so.
    pub const fn with_color(mut self, color: bool) -> Config {
        self.color = color;
        self
    }

    /// How many lines are shown above and below each line that has a label. Usually 0.
    pub const fn with_context_lines(mut self, context_lines: usize) -> Config {
        self.context_lines = context_lines;
        self
    }

    /// How many columns the text of a line may take. A longer line is cut to what its labels need and to what
    /// stands round it. Usually 0: lines are shown whole. Margin, gutter and messages have columns of their own.
    pub const fn with_width(mut self, width: usize) -> Config {
        self.width = width;
        self
    }

    /// How many columns there are from one tab stop to the next. Usually 4.
    ///
    /// # Panics
    ///
    /// Panics where the width is 0.
    pub const fn with_tab_width(mut self, tab_width: usize) -> Config {
        assert!(tab_width > 0, "a tab has a width");
        self.tab_width = tab_width;
        self
    }

    /// What the strokes are drawn with. Usually Unicode.
    pub const fn with_char_set(mut self, char_set: CharSet) -> Config {
        self.char_set = char_set;
        self
    }

    /// What the offsets of spans count. Usually characters.
    pub const fn with_index_type(mut self, index_type: IndexType) -> Config {
        self.index_type = index_type;
        self
    }

    /// Whether symbols replace the control and invisible characters listed in SAFE.md. The default is
    /// false, since the escapes of [`Fmt`](crate::Fmt) in messages would be replaced too. Offsets refer
    /// to the original texts. `ariadne` 0.6.0 has no such call.
    ///
    /// ```
    /// use ariadne::{Config, Report, ReportKind, Source};
    ///
    /// let mut picture = Vec::new();
    /// Report::build(ReportKind::Error, 0..0)
    ///     .with_config(Config::new().with_color(false).with_safe(true))
    ///     .with_message("a \x1b[1mbold\x1b[0m word")
    ///     .finish()
    ///     .write(Source::from(""), &mut picture)
    ///     .unwrap();
    /// assert_eq!(String::from_utf8(picture).unwrap(), "Error: a \u{241b}[1mbold\u{241b}[0m word\n");
    /// ```
    pub const fn with_safe(mut self, safe: bool) -> Config {
        self.safe = safe;
        self
    }

    /// The usual configuration, but for what flags of the library ask for. (Cases have flags.)
    #[doc(hidden)]
    pub fn of_flags(flags: u32) -> Config {
        let has = |bit| flags & bit != 0;
        Config::new()
            .with_color(!has(1))
            .with_char_set(if has(2) { CharSet::Ascii } else { CharSet::Unicode })
            .with_compact(has(4))
            .with_index_type(if has(8) { IndexType::Byte } else { IndexType::Char })
            .with_underlines(!has(16))
            .with_multiline_arrows(!has(32))
            .with_cross_gap(!has(64))
            .with_safe(!has(128))
            .with_lone_underlines(has(256))
    }

    /// The flags that the library reads.
    pub(crate) fn flags(&self) -> u32 {
        let flags = [
            !self.color,
            self.char_set == CharSet::Ascii,
            self.compact,
            self.index_type == IndexType::Byte,
            !self.underlines,
            !self.multiline_arrows,
            !self.cross_gap,
            !self.safe,
            self.lone_underlines,
        ];
        flags.iter().enumerate().map(|(bit, is_set)| u32::from(*is_set) << bit).sum()
    }
}

impl Default for Config {
    fn default() -> Config {
        Config::new()
    }
}

/// The text is that of `ariadne` 0.6.0. Behind it stand those settings that it lacks and that are not the usual ones.
impl Debug for Config {
    fn fmt(&self, f: &mut Formatter<'_>) -> fmt::Result {
        let mut fields = f.debug_struct("Config");
        fields
            .field("cross_gap", &self.cross_gap)
            .field("label_attach", &self.label_attach)
            .field("compact", &self.compact)
            .field("underlines", &self.underlines)
            .field("multiline_arrows", &self.multiline_arrows)
            .field("color", &self.color)
            .field("tab_width", &self.tab_width)
            .field("char_set", &self.char_set)
            .field("index_type", &self.index_type);
        let further: &[(&str, &dyn Debug, bool)] = &[
            ("lone_underlines", &self.lone_underlines, self.lone_underlines),
            ("context_lines", &self.context_lines, self.context_lines != 0),
            ("width", &self.width, self.width != 0),
            ("safe", &self.safe, self.safe),
        ];
        for (name, value, is_told) in further {
            if *is_told {
                fields.field(name, value);
            }
        }
        fields.finish()
    }
}

#[cfg(test)]
mod tests {
    use super::Config;

    #[test]
    fn further_settings_are_told_behind_the_originals() {
        let usual = format!("{:?}", Config::new());
        assert!(usual.ends_with("index_type: Char }"));
        let further = Config::new().with_lone_underlines(true).with_context_lines(1).with_width(80).with_safe(true);
        let told = "index_type: Char, lone_underlines: true, context_lines: 1, width: 80, safe: true }";
        assert_eq!(format!("{further:?}"), usual.replace("index_type: Char }", told));
    }
}
