//! Suggestions: edits of a source, and the text of a help that shows them.

use crate::call::{suggest, GivenEdit, GivenSource, GivenSuggestion, Lent, OptionalText, Refusal, Text};
use crate::config::Config;
use crate::report::Report;
use crate::source::Source;
use std::error::Error;
use std::fmt::{self, Display, Formatter};
use std::ops::Range;

/// What stands in place of a piece of a source. `ariadne` 0.6.0 has no such type.
#[derive(Clone, Debug, PartialEq, Eq)]
pub struct Edit {
    /// What is replaced: offsets as those of labels, which are equal for an insertion.
    pub span: Range<usize>,
    /// What is put there.
    pub text: String,
}

impl Edit {
    /// The edit that puts a text in place of a piece.
    pub fn new<T: ToString>(span: Range<usize>, text: T) -> Edit {
        Edit { span, text: text.to_string() }
    }
}

/// Why there is no text that shows edits. Each but the last two names an edit by its number, from 0. Of edits the
/// first reason that holds of some counts, in this order.
#[derive(Clone, Copy, Debug, PartialEq, Eq)]
pub enum EditError {
    /// Its end lies before its start.
    Reversed(usize),
    /// It begins before the end of the edit in front of it.
    Overlaps(usize),
    /// It reaches past the source.
    PastSource(usize),
    /// It begins or ends inside of a character.
    CutsCharacter(usize),
    /// The line numbers of the source exceed the greatest number.
    SourceLines,
    /// There was no memory for the text.
    NoMemory,
}

impl EditError {
    /// What a status and the number of an edit say.
    fn of(Refusal(status): Refusal, number: usize) -> EditError {
        match status {
            19 => EditError::SourceLines,
            21 => EditError::Reversed(number),
            22 => EditError::Overlaps(number),
            23 => EditError::PastSource(number),
            24 => EditError::CutsCharacter(number),
            // (Texts are UTF-8 here, and flags are known.)
            _ => EditError::NoMemory,
        }
    }
}

impl Display for EditError {
    fn fmt(&self, f: &mut Formatter<'_>) -> fmt::Result {
        match self {
            EditError::Reversed(edit) => write!(f, "edit {edit}: it ends before it starts"),
            EditError::Overlaps(edit) => write!(f, "edit {edit}: it starts before the end of the edit in front of it"),
            EditError::PastSource(edit) => write!(f, "edit {edit}: it reaches past the source"),
            EditError::CutsCharacter(edit) => write!(f, "edit {edit}: one of its ends is inside a character"),
            EditError::SourceLines => f.write_str("the line numbers of the source exceed the greatest number"),
            EditError::NoMemory => f.write_str("there was no memory"),
        }
    }
}

impl Error for EditError {}

impl Report<'_> {
    /// The text of a help that shows edits of a source: each line that changes as it was (`-`) and as it will be
    /// (`+`), behind its number, and `...` for lines between that stay. It is handed in as a help, as it is or behind
    /// a message and a line feed. Edits that change nothing have an empty text.
    ///
    /// The configuration has the unit of offsets, the characters of strokes, and the width of a tab and of a line.
    /// Symbols replace the characters listed in SAFE.md, whatever the configuration says. `ariadne` 0.6.0 has no
    /// such call.
    ///
    /// ```
    /// use ariadne::{Config, Edit, EditError, IndexType, Report, Source};
    ///
    /// let source = Source::from("fn f() {\n    g(d\u{e9}j);\n}\n").with_display_line_offset(40);
    /// let edits = [Edit::new(16..17, "x"), Edit::new(15..15, "&")];
    /// let help = Report::suggest(&source, &edits, &Config::new()).unwrap();
    /// assert_eq!(help, "42 -     g(d\u{e9}j);\n42 +     g(&dxj);");
    ///
    /// let bytes = Config::new().with_index_type(IndexType::Byte);
    /// assert_eq!(Report::suggest(&source, &[Edit::new(17..18, "")], &bytes), Err(EditError::CutsCharacter(0)));
    /// ```
    pub fn suggest<I: AsRef<str>>(source: &Source<I>, edits: &[Edit], config: &Config) -> Result<String, EditError> {
        let given: Vec<GivenEdit<'_>> = edits.iter().map(given_edit).collect();
        let suggestion = GivenSuggestion {
            source: GivenSource {
                name: OptionalText::from(None),
                text: Text::from(source.text()),
                line_offset: source.display_line_offset(),
            },
            edits: Lent::from(given.as_slice()),
            flags: config.flags(),
            tab_width: config.tab_width,
            width: config.width,
        };
        match suggest(&suggestion) {
            Ok(text) => Ok(String::from_utf8_lossy(&text).into_owned()),
            Err((refusal, number)) => Err(EditError::of(refusal, number)),
        }
    }
}

/// An edit as the library is lent it.
fn given_edit(edit: &Edit) -> GivenEdit<'_> {
    GivenEdit { start: edit.span.start, end: edit.span.end, text: Text::from(edit.text.as_str()) }
}

#[cfg(test)]
mod tests {
    use super::{Edit, EditError};
    use crate::{Config, IndexType, Report, Source};
    use std::ops::Range;

    /// Two lines: in characters 0..3 and 3..7, in bytes 0..3 and 3..8.
    const TEXT: &str = "ab\nd\u{e9}j\n";

    fn suggested(index_type: IndexType, edits: &[(Range<usize>, &str)]) -> Result<String, EditError> {
        let edits: Vec<Edit> = edits.iter().map(|(span, text)| Edit::new(span.clone(), text)).collect();
        Report::suggest(&Source::from(TEXT), &edits, &Config::new().with_index_type(index_type))
    }

    #[test]
    fn texts() {
        let told = |edits: &[(Range<usize>, &str)]| suggested(IndexType::Char, edits).unwrap();
        assert_eq!(told(&[]), "");
        assert_eq!(told(&[(0..1, "")]), "1 - ab\n1 + b");
        assert_eq!(told(&[(5..6, "\x1b"), (0..2, "x")]), "1 - ab\n2 - d\u{e9}j\n1 + x\n2 + d\u{e9}\u{241b}");
        assert_eq!(told(&[(3..3, &"x".repeat(2000))]), format!("2 - d\u{e9}j\n2 + {}d\u{e9}j", "x".repeat(2000)));
        assert_eq!(suggested(IndexType::Byte, &[(4..6, "e")]).unwrap(), "2 - d\u{e9}j\n2 + dej");
    }

    #[test]
    #[allow(clippy::reversed_empty_ranges)]
    fn refusals() {
        let refused = |edits: &[(Range<usize>, &str)]| suggested(IndexType::Byte, edits).unwrap_err();
        assert_eq!(refused(&[(0..1, ""), (2..1, "")]), EditError::Reversed(1));
        assert_eq!(refused(&[(1..3, ""), (0..2, "")]), EditError::Overlaps(0));
        assert_eq!(refused(&[(0..9, "")]), EditError::PastSource(0));
        assert_eq!(refused(&[(0..5, "")]), EditError::CutsCharacter(0));
        assert_eq!(refused(&[(0..5, "")]).to_string(), "edit 0: one of its ends is inside a character");
    }
}
