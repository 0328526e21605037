//! Texts, and their lines.

use crate::blocks::{starts_of, Start};
use crate::span::Span;
use std::fmt::{self, Debug, Formatter};
use std::ops::{Range, RangeInclusive};

/// A line of a source.
#[derive(Clone, Copy, Debug, Hash, PartialEq, Eq)]
pub struct Line {
    offset: usize,
    char_len: usize,
    byte_offset: usize,
    byte_len: usize,
}

impl Line {
    /// How many characters of the source stand in front of it.
    pub fn offset(&self) -> usize {
        self.offset
    }

    /// How many characters it has, its end counted.
    pub fn len(&self) -> usize {
        self.char_len
    }

    /// Whether it has no characters.
    pub fn is_empty(&self) -> bool {
        self.len() == 0
    }

    /// Its characters, as offsets into the source.
    pub fn span(&self) -> Range<usize> {
        self.offset..self.offset + self.char_len
    }

    /// Its bytes, as offsets into the source.
    fn byte_span(&self) -> Range<usize> {
        self.byte_offset..self.byte_offset + self.byte_len
    }

    /// The line between two places.
    fn between(start: Start, past: Start) -> Line {
        Line {
            offset: start.chars,
            char_len: past.chars - start.chars,
            byte_offset: start.bytes,
            byte_len: past.bytes - start.bytes,
        }
    }
}

/// A text with lines.
#[derive(Clone, Hash, PartialEq, Eq)]
pub struct Source<I: AsRef<str> = String> {
    text: I,
    /// Where each line begins, and where the last one ends.
    starts: Vec<Start>,
    display_line_offset: usize,
}

impl<I: AsRef<str>> From<I> for Source<I> {
    /// The source of a text, in one pass over it.
    fn from(text: I) -> Source<I> {
        let starts = starts_of(text.as_ref());
        Source { text, starts, display_line_offset: 0 }
    }
}

/// The fields are those of `ariadne` 0.6.0.
impl<I: AsRef<str> + Debug> Debug for Source<I> {
    fn fmt(&self, f: &mut Formatter<'_>) -> fmt::Result {
        f.debug_struct("Source")
            .field("text", &self.text)
            .field("lines", &self.lines().collect::<Vec<Line>>())
            .field("len", &self.len())
            .field("byte_len", &self.text().len())
            .field("display_line_offset", &self.display_line_offset)
            .finish()
    }
}

impl<I: AsRef<str>> Source<I> {
    /// The whole text.
    pub fn text(&self) -> &str {
        self.text.as_ref()
    }

    /// The same source, whose line numbers are shown with an offset added.
    pub fn with_display_line_offset(mut self, offset: usize) -> Source<I> {
        self.display_line_offset = offset;
        self
    }

    /// What is added to the line numbers that are shown.
    pub fn display_line_offset(&self) -> usize {
        self.display_line_offset
    }

    /// How many characters the text has.
    pub fn len(&self) -> usize {
        self.starts.last().map_or(0, |end| end.chars)
    }

    /// Whether it has none.
    pub fn is_empty(&self) -> bool {
        self.len() == 0
    }

    /// Its characters.
    pub fn chars(&self) -> impl Iterator<Item = char> + '_ {
        self.text().chars()
    }

    /// The line of this number, from 0.
    pub fn line(&self, idx: usize) -> Option<Line> {
        let [start, past] = self.starts.get(idx..)?.first_chunk::<2>()?;
        Some(Line::between(*start, *past))
    }

    /// All lines.
    pub fn lines(&self) -> impl ExactSizeIterator<Item = Line> + '_ {
        self.starts.windows(2).map(|ends| Line::between(ends[0], ends[1]))
    }

    /// The line that an offset in characters is on, its number, and the column, both from 0. The offset of
    /// the end is on the last line; a greater one is on none.
    pub fn get_offset_line(&self, offset: usize) -> Option<(Line, usize, usize)> {
        let number = (offset <= self.len()).then(|| self.number_of(offset, |start| start.chars))?;
        let line = self.line(number)?;
        Some((line, number, offset - line.offset))
    }

    /// The same of an offset in bytes, with the column in bytes.
    pub fn get_byte_line(&self, byte_offset: usize) -> Option<(Line, usize, usize)> {
        let number = (byte_offset <= self.text().len()).then(|| self.number_of(byte_offset, |start| start.bytes))?;
        let line = self.line(number)?;
        Some((line, number, byte_offset - line.byte_offset))
    }

    /// The number of the last line, from 0.
    pub(crate) fn last_line(&self) -> usize {
        self.starts.len() - 2
    }

    /// The number of the last line that starts at most at an offset.
    fn number_of(&self, offset: usize, of: impl Fn(&Start) -> usize) -> usize {
        let lines = &self.starts[..=self.last_line()];
        lines.partition_point(|start| of(start) <= offset).saturating_sub(1)
    }

    /// The number of the line that an offset is on, in bytes or in characters. One past the end is on the last.
    /// It is looked for at the lines `near` first.
    #[inline]
    pub(crate) fn line_number<const N: usize>(&self, offset: usize, in_bytes: bool, near: [usize; N]) -> usize {
        let of = |start: &Start| if in_bytes { start.bytes } else { start.chars };
        let has = |line: &usize| match self.starts.get(*line..) {
            Some([start, next, behind @ ..]) => of(start) <= offset && (offset < of(next) || behind.is_empty()),
            _ => false,
        };
        near.into_iter().find(has).unwrap_or_else(|| self.number_of(offset, of))
    }

    /// Where the first of these lines starts, and how long they are together, both in bytes or in characters,
    /// and their text. There is one at least.
    #[inline]
    pub(crate) fn lines_with_text(&self, numbers: RangeInclusive<usize>, in_bytes: bool) -> (usize, usize, &str) {
        let (first, past) = (self.starts[*numbers.start()], self.starts[numbers.end() + 1]);
        let text = &self.text()[first.bytes..past.bytes];
        if in_bytes {
            (first.bytes, text.len(), text)
        } else {
            (first.chars, past.chars - first.chars, text)
        }
    }

    /// How many characters stand in front of the one that has this byte, which is its first or its last, on this line.
    pub(crate) fn chars_before(&self, byte_offset: usize, line: usize) -> usize {
        let (start, text) = (self.starts[line], self.text());
        let inside = usize::from(!text.is_char_boundary(byte_offset));
        start.chars + text[start.bytes..byte_offset + inside].chars().count() - inside
    }

    /// How many characters the lines between two have together. The first stands in front of the second.
    pub(crate) fn len_between(&self, line: usize, other: usize) -> usize {
        self.starts[other].chars - self.starts[line + 1].chars
    }

    /// How many bytes these lines have together.
    pub(crate) fn bytes_of(&self, numbers: RangeInclusive<usize>) -> usize {
        self.starts[numbers.end() + 1].bytes - self.starts[*numbers.start()].bytes
    }

    /// How many bytes the longest of these lines has.
    pub(crate) fn longest_of(&self, numbers: RangeInclusive<usize>) -> usize {
        let ends = &self.starts[*numbers.start()..numbers.end() + 2];
        ends.windows(2).map(|ends| ends[1].bytes - ends[0].bytes).max().unwrap_or(0)
    }

    /// Whether a label with these first and last characters is drawn for sure: it reaches past the text by one at most
    /// and, in bytes, cuts no character.
    pub(crate) fn has(&self, [first, last]: &[usize; 2], in_bytes: bool) -> bool {
        if !in_bytes {
            return *last <= self.len();
        }
        let text = self.text();
        text.is_char_boundary(*first) && (*last == text.len() || text.is_char_boundary(last.saturating_add(1)))
    }

    /// The numbers of the lines that a span is on, each of which the source has.
    pub fn get_line_range<S: Span>(&self, span: &S) -> Range<usize> {
        let last = span.end().saturating_sub(1).max(span.start());
        let first_line = self.get_offset_line(span.start()).map_or(0, |(_, number, _)| number);
        let past_line = self.get_offset_line(last).map_or(self.last_line() + 1, |(_, number, _)| number + 1);
        first_line..past_line
    }

    /// The text of a line, with its end.
    pub fn get_line_text(&self, line: Line) -> Option<&'_ str> {
        self.text().get(line.byte_span())
    }
}

#[cfg(test)]
mod tests {
    use super::Source;

    #[test]
    fn debug_texts_are_those_of_ariadne() {
        let source = Source::from("\u{e9}\nb").with_display_line_offset(7);
        assert_eq!(
            format!("{source:?}"),
            "Source { text: \"\u{e9}\\nb\", lines: [Line { offset: 0, char_len: 2, byte_offset: 0, byte_len: 3 }, \
             Line { offset: 2, char_len: 1, byte_offset: 3, byte_len: 1 }], len: 3, byte_len: 4, \
             display_line_offset: 7 }"
        );
    }
}
