//! What the library is lent of a source.
//!
//! It reads a source from its beginning to its end, to find its lines. So it is lent only the lines that a label
//! begins or ends on, those that are shown near them, and the header's. The lines in front are counted by the line
//! offset. Where the lines of all spans are few they are lent as they are, without a copy.
//!
//! Lines between are hidden. Where they are few, an empty one stands for each, so that all lines keep their numbers.
//! Where they are many, one stands for those between two that are lent, and the numbers have stand-ins (`numbers.rs`).
//! Each label keeps its length, since the gutter and the colours go by it: where a label runs over hidden lines, blanks
//! stand for their characters.

use crate::config::{Config, IndexType};
use crate::numbers::Numbers;
use crate::source::Source;
use std::borrow::Cow;
use std::ops::RangeInclusive;

/// An empty line. (Its end joins no character beside it, as a line feed would join a carriage return.)
const EMPTY_LINE: &str = "\x0c";

/// What stands for a character of a hidden line. (It is one byte, so it counts as one in bytes too.)
const BLANK: &str = " ";

/// Lines for each span that are lent whole, also where nothing is shown of some. To read them takes less than to
/// find which these are.
const FEW_LINES: usize = 2;

/// Hidden lines for each span that have an empty one each. To read these takes less than to draw a second time.
const FEW_HIDDEN_LINES: usize = 256;

/// Spans of a report whose offsets in bytes are lent as offsets in characters. To count the characters in front of them
/// takes less here than in the library, and of so many no more than to read their lines.
const FEW_SPANS: usize = 16;

/// What is lent of a source.
pub(crate) struct Excerpt<'s> {
    pub(crate) text: Cow<'s, str>,
    /// Those of a first and a second drawing. They are one where no number has a stand-in.
    pub(crate) line_offsets: [usize; 2],
}

/// What the size of a picture goes by.
#[derive(Clone, Copy, Default)]
pub(crate) struct Shape {
    /// How many lines are lent.
    pub(crate) lines: usize,
    /// The bytes of the longest.
    pub(crate) longest: usize,
    /// How many spans run over several lines, as far as that is seen.
    pub(crate) over: usize,
}

impl Shape {
    /// The shape of all that is lent, with another source.
    #[inline]
    pub(crate) fn with(self, other: Shape) -> Shape {
        Shape {
            lines: self.lines + other.lines,
            longest: self.longest.max(other.longest),
            over: self.over + other.over,
        }
    }
}

/// The offsets of the first and the last character of a span, in a source or in what is lent of it. One that has no
/// character has its start as both.
pub(crate) type Ends = [usize; 2];

/// The spans of a report that are in one source. There is a label at least.
pub(crate) struct Spans {
    /// The labels' spans, and behind them the place that the header names, if it is in this source.
    pub(crate) ends: Vec<Ends>,
    pub(crate) has_place: bool,
    /// Whether offsets in bytes may become offsets in characters, and then whether they did.
    pub(crate) in_chars: bool,
}

impl Spans {
    pub(crate) fn labels(&self) -> &[Ends] {
        &self.ends[..self.ends.len() - usize::from(self.has_place)]
    }

    /// The header's place, as both ends.
    pub(crate) fn place(&self) -> Option<&Ends> {
        self.ends.last().filter(|_| self.has_place)
    }

    /// Whether the offsets, which are in bytes, can become offsets in characters: that of the place cuts none. (Where
    /// numbers have stand-ins, no label does.)
    fn can_be_in_chars<I: AsRef<str>>(&self, source: &Source<I>) -> bool {
        self.in_chars
            && self.ends.len() <= FEW_SPANS
            && self.place().is_none_or(|[at, _]| source.text().is_char_boundary(*at))
    }
}

/// The lines that the outermost ends of spans are on.
pub(crate) type Lines = [usize; 2];

/// A line that a span begins or ends on, and the last line of that span.
struct End {
    line: usize,
    last_line: usize,
    /// The number of the span, and which of its ends are on this line.
    span: usize,
    sides: RangeInclusive<usize>,
}

/// The lines that these spans begin or end on, in their order. A line is there as often as one does.
fn ends_of<I: AsRef<str>>(source: &Source<I>, spans: &[Ends], outer: Lines, in_bytes: bool) -> Vec<End> {
    let mut ends = Vec::with_capacity(spans.len());
    let mut near = outer[0];
    for (span, [first, last]) in spans.iter().enumerate() {
        let line = source.line_number(*first, in_bytes, [near, outer[0], outer[1]]);
        let last_line = source.line_number(*last, in_bytes, [line, outer[1]]);
        if line == last_line {
            ends.push(End { line, last_line, span, sides: 0..=1 });
        } else {
            ends.push(End { line, last_line, span, sides: 0..=0 });
            ends.push(End { line: last_line, last_line, span, sides: 1..=1 });
        }
        near = line;
    }
    if !ends.is_sorted_by_key(|end| end.line) {
        ends.sort_unstable_by_key(|end| end.line);
    }
    ends
}

/// Lines that are lent, and stand one behind another.
struct Run {
    first: usize,
    last: usize,
    /// How many of the ends are on these lines.
    ends: usize,
    /// Whether a span runs over the hidden lines in front.
    is_within: bool,
}

impl Run {
    fn lines(&self) -> usize {
        self.last - self.first + 1
    }
}

/// The lines that these ends are on, and those that are shown near them, of a source with this last line.
fn runs_of(ends: &[End], context_lines: usize, last_line: usize) -> Vec<Run> {
    let mut runs: Vec<Run> = Vec::new();
    let mut reached = 0; // the last line of the spans that begin in front
    for end in ends {
        let first = end.line.saturating_sub(context_lines);
        let last = end.line.saturating_add(context_lines).min(last_line);
        match runs.last_mut() {
            Some(run) if first <= run.last + 1 => {
                run.last = last;
                run.ends += 1;
            }
            _ => runs.push(Run { first, last, ends: 1, is_within: end.line <= reached }),
        }
        reached = reached.max(end.last_line);
    }
    runs
}

/// All lines of a source from the first to the last that some spans are on, and those near them; or all that it has.
pub(crate) struct FewLines<'s> {
    text: &'s str,
    line_offset: usize,
    /// The offset of the first, in bytes or in characters.
    pub(crate) start: usize,
    pub(crate) count: usize,
    /// The bytes of the longest.
    pub(crate) longest: usize,
}

impl<'s> FewLines<'s> {
    /// Those of so many spans, of which these are the outermost ends. Where they are many, the lines of these.
    #[inline]
    pub(crate) fn of<I: AsRef<str>>(
        source: &'s Source<I>,
        ends: Ends,
        spans: usize,
        config: &Config,
    ) -> Result<FewLines<'s>, Lines> {
        let last_line = source.last_line();
        if last_line > FEW_LINES * spans {
            return FewLines::among_many(source, ends, spans, config);
        }
        let (text, line_offset) = (source.text(), source.display_line_offset());
        let longest = source.longest_of(0..=last_line);
        Ok(FewLines { text, line_offset, start: 0, count: last_line + 1, longest })
    }

    /// The same of a source that has many lines.
    #[inline]
    fn among_many<I: AsRef<str>>(
        source: &'s Source<I>,
        [first, last]: Ends,
        spans: usize,
        config: &Config,
    ) -> Result<FewLines<'s>, Lines> {
        let in_bytes = config.index_type == IndexType::Byte;
        let first = source.line_number(first, in_bytes, [0]);
        let last = source.line_number(last, in_bytes, [first]);
        if last - first > FEW_LINES * spans {
            return Err([first, last]);
        }
        let first = first.saturating_sub(config.context_lines);
        let last = last.saturating_add(config.context_lines).min(source.last_line());
        let (start, _, text) = source.lines_with_text(first..=last, in_bytes);
        let line_offset = source.display_line_offset().saturating_add(first);
        let longest = source.longest_of(first..=last);
        Ok(FewLines { text, line_offset, start, count: last - first + 1, longest })
    }

    #[inline]
    pub(crate) fn excerpt(self) -> Excerpt<'s> {
        Excerpt { text: Cow::Borrowed(self.text), line_offsets: [self.line_offset; 2] }
    }
}

impl Excerpt<'_> {
    /// Whether a line stands for others in it, by a number that differs between two drawings.
    pub(crate) fn has_stand_ins(&self) -> bool {
        self.line_offsets[0] != self.line_offsets[1]
    }

    /// The lines that these spans begin or end on, those near them, and what stands for those between. The spans are
    /// moved to what is lent, whose shape is told too. The lines of the outermost ends are looked at first.
    pub(crate) fn of_lines_apart<I: AsRef<str>>(
        source: &Source<I>,
        spans: &mut Spans,
        outer: Lines,
        numbers: &mut Numbers,
        config: &Config,
    ) -> (Excerpt<'static>, Shape) {
        let in_bytes = config.index_type == IndexType::Byte;
        let ends = ends_of(source, &spans.ends, outer, in_bytes);
        let runs = runs_of(&ends, config.context_lines, source.last_line());
        let stand_ins = stand_ins(source, spans, &runs, numbers, config);
        spans.in_chars = in_bytes && stand_ins.is_some() && spans.can_be_in_chars(source);
        let mut lent = Lent::with_room(runs.iter().map(|run| source.bytes_of(run.first..=run.last) + 1).sum());
        let mut rest = ends.as_slice();
        for (at, run) in runs.iter().enumerate() {
            if at > 0 {
                lent.hide(source, runs[at - 1].last, run, stand_ins.is_some());
            }
            if let Some([first, _]) = stand_ins {
                numbers.tell(first + lent.lines, source.display_line_offset() + run.first + 1);
            }
            let (here, behind) = rest.split_at(run.ends);
            lent.lend(source, run, here, spans, in_bytes);
            rest = behind;
        }
        let in_front = source.display_line_offset().saturating_add(runs[0].first);
        let line_offsets = stand_ins.map_or([in_front; 2], |numbers| numbers.map(|number| number - 1));
        (Excerpt { text: Cow::Owned(lent.text), line_offsets }, lent.shape)
    }
}

/// The stand-ins for the number of the first line that is lent, in both drawings, where so many lines between are
/// hidden that numbers have some.
fn stand_ins<I: AsRef<str>>(
    source: &Source<I>,
    spans: &Spans,
    runs: &[Run],
    numbers: &mut Numbers,
    config: &Config,
) -> Option<[usize; 2]> {
    let (first, last) = (runs.first()?.first, runs.last()?.last);
    let lent: usize = runs.iter().map(Run::lines).sum();
    if last - first + 1 - lent <= FEW_HIDDEN_LINES * spans.ends.len() {
        return None;
    }
    // (Margins have room for the numbers of the labels that are drawn. So each one has to be.)
    let in_bytes = config.index_type == IndexType::Byte;
    if !spans.labels().iter().all(|ends| source.has(ends, in_bytes)) {
        return None;
    }
    source.display_line_offset().checked_add(last + 1)?;
    let last_offset = spans.labels().iter().map(|ends| ends[1]).max()?;
    let last_line = source.line_number(last_offset, in_bytes, [last]);
    let last_shown = last_line.saturating_add(config.context_lines).min(source.last_line());
    let greatest = source.display_line_offset() + last_shown + 1;
    numbers.take(lent + runs.len() - 1, greatest.ilog10() + 1)
}

/// What is lent of lines apart, as far as it is there.
#[derive(Default)]
struct Lent {
    text: String,
    /// How long it is, in characters or in bytes.
    len: usize,
    /// How many lines it has, with those that stand for others.
    lines: usize,
    shape: Shape,
}

impl Lent {
    /// Nothing, with room for so many bytes.
    fn with_room(len: usize) -> Lent {
        Lent { text: String::with_capacity(len), ..Lent::default() }
    }

    /// Appends what stands for the lines between two: an empty line for each or for all, and where a span runs
    /// over them blanks for all their other characters.
    fn hide<I: AsRef<str>>(&mut self, source: &Source<I>, line: usize, run: &Run, as_one: bool) {
        let lines = if as_one { 1 } else { run.first - line - 1 };
        let len = if run.is_within { source.len_between(line, run.first) } else { lines };
        self.text.push_str(&BLANK.repeat(len - lines));
        match lines {
            1 => self.text.push_str(EMPTY_LINE),
            _ => self.text.push_str(&EMPTY_LINE.repeat(lines)),
        }
        self.len += len;
        self.lines += lines;
    }

    /// Appends these lines, and moves the ends that are on them.
    fn lend<I: AsRef<str>>(
        &mut self,
        source: &Source<I>,
        run: &Run,
        ends: &[End],
        spans: &mut Spans,
        in_bytes: bool,
    ) {
        let (start, len, text) = source.lines_with_text(run.first..=run.last, in_bytes && !spans.in_chars);
        for End { line, last_line, span, sides } in ends {
            for side in sides.clone() {
                let offset = spans.ends[*span][side];
                let offset = if spans.in_chars { source.chars_before(offset, *line) } else { offset };
                spans.ends[*span][side] = self.len + (offset - start);
            }
            self.shape.over += usize::from(line < last_line);
        }
        self.text.push_str(text);
        self.len += len;
        self.lines += run.lines();
        self.shape.lines += run.lines();
        self.shape.longest = self.shape.longest.max(source.longest_of(run.first..=run.last));
    }
}

#[cfg(test)]
mod tests {
    use super::{Ends, Excerpt, FewLines, Spans};
    use crate::numbers::Numbers;
    use crate::{CharSet, Color, Config, IndexType, Label, LabelAttach, Report, ReportKind, Source};
    use std::borrow::Cow;
    use std::ops::Range;

    const PLAIN: Config = Config::new().with_char_set(CharSet::Ascii);

    /// A text with each end that a line may have, and with short and long lines.
    const TEXT: &str =
        "ab\r\n\u{e9}c\n\nd\r\re\u{2028}f\x0bg\u{6f22}\u{e9}ggggggggggggh\x0ci\u{85}j\n\r\nk\u{6f22}l\nm";

    /// The spans of labels with these first and last characters, and no place of a header.
    fn labels(ends: &[[usize; 2]]) -> Spans {
        Spans { ends: ends.to_vec(), has_place: false, in_chars: false }
    }

    /// What is lent of lines apart.
    fn apart(source: &Source<&str>, spans: &mut Spans, config: &Config) -> Excerpt<'static> {
        Excerpt::of_lines_apart(source, spans, [0; 2], &mut Numbers::default(), config).0
    }

    /// A label over these characters. Without a word it only marks.
    fn label(span: Range<usize>, word: Option<&str>) -> Label {
        let label = Label::new(span).with_color(Color::Red);
        match word {
            Some(word) => label.with_message(word),
            None => label,
        }
    }

    /// The first and the last character of a span.
    fn ends_of(span: &Range<usize>) -> Ends {
        [span.start, span.end.saturating_sub(1).max(span.start)]
    }

    /// A report that says nothing but its labels, and whose header names a place.
    fn report_of(labels: Vec<Label>, at: usize, config: Config) -> Report<'static> {
        Report::build(ReportKind::Error, at..at).with_config(config).with_labels(labels).finish()
    }

    /// Asserts that a report, whose header names a place, is drawn as over the whole source: as it is written, and in
    /// each way where lines apart are lent. Returns how many ways there are if numbers have stand-ins then, and else 0.
    fn assert_draws_alike(source: &Source<String>, report: &Report, at: usize) -> usize {
        let config = report.content.config;
        let told = format!("{report:?} {:?} at {at}", report.labels);
        let ends = report.labels.iter().map(|label| ends_of(&label.span)).chain([[at; 2]]).collect();
        let mut spans = Spans { ends, has_place: true, in_chars: false };
        let line_offsets = [source.display_line_offset(); 2];
        let whole = Excerpt { text: Cow::Borrowed(source.text()), line_offsets };
        let want = report.pictures_over(whole, &spans, Numbers::default()).remove(0);
        let mut out = Vec::new();
        report.write(source, &mut out).unwrap();
        assert_eq!(String::from_utf8(out).unwrap(), want, "{told}");
        let mut numbers = Numbers::default();
        spans.in_chars = true;
        let (apart, _) = Excerpt::of_lines_apart(source, &mut spans, [0; 2], &mut numbers, &config);
        let has_stand_ins = apart.has_stand_ins();
        let pictures = report.pictures_over(apart, &spans, numbers);
        pictures.iter().for_each(|picture| assert_eq!(*picture, want, "{told}"));
        if has_stand_ins { pictures.len() } else { 0 }
    }

    #[test]
    fn hidden_lines_are_as_long_as_a_span_needs() {
        let source = Source::from("ab\ncd\u{e9}fg\nij\n");
        for (index, last) in [(IndexType::Char, 9), (IndexType::Byte, 10)] {
            let config = PLAIN.with_index_type(index);
            assert_eq!(apart(&source, &mut labels(&[[0, 1], [last, last]]), &config).text, "ab\n\x0cij\n");
            let mut over = labels(&[[0, last]]);
            assert_eq!(apart(&source, &mut over, &config).text, "ab\n     \x0cij\n");
            assert_eq!(over.ends, [[0, 9]]);
        }
    }

    #[test]
    fn lines_near_others_are_lent() {
        let source = Source::from("ab\ncd\nef\ngh\nij\nkl\n");
        for (context_lines, first, both) in [
            (0, "ab\n", "ab\n\x0c\x0c\x0cij\n"),
            (1, "ab\ncd\n", "ab\ncd\n\x0cgh\nij\nkl\n"),
            (2, "ab\ncd\nef\n", source.text()),
            (usize::MAX, source.text(), source.text()),
        ] {
            let config = PLAIN.with_context_lines(context_lines);
            assert_eq!(apart(&source, &mut labels(&[[0, 1]]), &config).text, first);
            assert_eq!(apart(&source, &mut labels(&[[0, 1], [12, 13]]), &config).text, both);
        }
        let mut spans = Spans { ends: vec![[9, 9], [9, 9]], has_place: true, in_chars: false };
        let middle = apart(&source, &mut spans, &PLAIN.with_context_lines(1));
        assert_eq!((&*middle.text, middle.line_offsets), ("ef\ngh\nij\n", [2; 2]));
        assert_eq!(spans.ends, [[3, 3], [3, 3]]);
    }

    #[test]
    fn lines_that_are_few_are_lent_as_they_are() {
        let source = Source::from("ab\ncd\nef\ngh\nij\nkl\nmn\n").with_display_line_offset(20);
        let lines = FewLines::of(&source, [4, 16], 2, &PLAIN).unwrap();
        let counts = (lines.start, lines.count, lines.longest);
        let excerpt = lines.excerpt();
        assert_eq!((&*excerpt.text, excerpt.line_offsets, counts), ("cd\nef\ngh\nij\nkl\n", [21; 2], (3, 5, 3)));
        assert!(matches!(excerpt.text, Cow::Borrowed(_)));
        let lines = FewLines::of(&source, [10, 16], 1, &PLAIN.with_context_lines(2)).unwrap();
        let counts = (lines.start, lines.count, lines.longest);
        let excerpt = lines.excerpt();
        assert_eq!((&*excerpt.text, excerpt.line_offsets, counts), ("cd\nef\ngh\nij\nkl\nmn\n", [21; 2], (3, 6, 3)));
        assert_eq!(FewLines::of(&source, [1, 19], 2, &PLAIN).err(), Some([0, 6]));
        assert!(FewLines::of(&source, [1, 19], 3, &PLAIN).is_ok());
    }

    #[test]
    fn one_line_stands_for_many() {
        let text = "z\n".repeat(1000) + "b\n" + &"z\n".repeat(1000);
        let source = Source::from(text.as_str()).with_display_line_offset(20);
        let mut spans = Spans { ends: vec![[2, 2], [2000, 2000], [3990, 3990]], has_place: true, in_chars: true };
        let mut numbers = Numbers::default();
        let (excerpt, _) = Excerpt::of_lines_apart(&source, &mut spans, [0; 2], &mut numbers, &PLAIN);
        // (The numbers are 22, 1021 and 2016; those of labels have four digits at the most.)
        assert_eq!((&*excerpt.text, excerpt.line_offsets), ("z\n\x0cb\n\x0cz\n", [999, 3221]));
        assert_eq!(spans.ends, [[0, 0], [3, 3], [6, 6]]);
        assert_eq!(numbers.put_into(b" 1000\n 1002\n:1004 ", b" 3222\n 3224\n:3226 "), b"   22\n 1021\n:2016 ");
    }

    #[test]
    fn offsets_in_bytes_become_offsets_in_characters() {
        let source = Source::from("\u{e9}a\u{6f22}\n".repeat(3000) + "\u{e9}");
        let config = PLAIN.with_index_type(IndexType::Byte);
        let last = 7 * 3000;
        for (place, in_chars) in [(0, true), (2, true), (1, false), (last, true), (last + 2, true), (last + 3, false)] {
            let ends = vec![[0, 1], [2, 2], [3, 5], [5998, 5998], [last, last + 2], [place, place]];
            let mut spans = Spans { ends, has_place: true, in_chars: true };
            Excerpt::of_lines_apart(&source, &mut spans, [0; 2], &mut Numbers::default(), &config);
            assert_eq!(spans.in_chars, in_chars, "{place}");
            if in_chars {
                assert_eq!(spans.ends[..5], [[0, 0], [1, 1], [2, 2], [8, 8], [10, 11]]);
            }
        }
    }

    #[test]
    fn labels_that_are_left_out_keep_all_lines() {
        let text = "\u{e9}\n".repeat(1000);
        let source = Source::from(text.as_str());
        for (index, last, keeps_all) in [
            (IndexType::Char, 2000, false), // ("One past the end" is drawn.)
            (IndexType::Char, 2001, true),
            (IndexType::Byte, 2998, false),
            (IndexType::Byte, 2997, true), // (It ends inside of a character.)
            (IndexType::Byte, 3000, false),
            (IndexType::Byte, 3001, true),
        ] {
            let config = PLAIN.with_index_type(index);
            let excerpt = apart(&source, &mut labels(&[[0, 1], [6, last]]), &config);
            assert_eq!(excerpt.line_offsets == [0; 2], keeps_all, "{index:?} {last}");
        }
    }

    #[test]
    fn an_excerpt_draws_as_its_source() {
        let source = Source::from(TEXT.to_string()).with_display_line_offset(7);
        for (index, len) in [(IndexType::Char, source.len()), (IndexType::Byte, TEXT.len())] {
            let (past, half) = (len + 3, len / 2);
            for (start, end) in (0..past).flat_map(|start| (start..past).map(move |end| (start, end))) {
                let config = PLAIN.with_index_type(index).with_context_lines(end % 3);
                for other in [half..half + 2, 0..half, 4..len] {
                    for word in [Some("x"), None] {
                        let labels = vec![label(start..end, word), label(other.clone(), Some("y"))];
                        assert_draws_alike(&source, &report_of(labels, end / 3, config), end / 3);
                    }
                }
            }
        }
    }

    #[test]
    fn lines_behind_change_no_picture() {
        let text = "aa\nbbbbbbbb\ncc\ndddd\nee\n".to_string() + &"z\n".repeat(1 << 15);
        let source = Source::from(text);
        for (word, [one, two]) in [(Some("x"), [0..4, 11..16]), (None, [0..8, 6..16])] {
            let labels = vec![label(one, word), label(two, Some("y"))];
            assert_draws_alike(&source, &report_of(labels, 0, PLAIN), 0);
        }
    }

    #[test]
    fn a_column_is_no_number_of_a_line() {
        let source = Source::from("z".repeat(7000) + "\n" + &"z\n".repeat(2000));
        for (at, config) in (6985..7000).flat_map(|at| [(at, PLAIN), (at, PLAIN.with_compact(true))]) {
            let labels = vec![label(at..at + 1, Some("x")), label(10_000..10_001, Some("y"))];
            assert_eq!(assert_draws_alike(&source, &report_of(labels, at, config.with_width(40)), at), 2);
        }
    }

    #[test]
    fn texts_that_have_each_mark_are_drawn_twice() {
        let source = Source::from("z\n".repeat(2000));
        let marks: Vec<String> = (692..700).map(|mark| mark.to_string()).collect();
        for (said, ways) in [(marks.join(" "), 1), (marks[1..].join("\n"), 2)] {
            let labels = vec![label(0..1, Some("x")), label(3996..3997, Some("y"))];
            let report = |labels| Report::build(ReportKind::Custom("k", Color::Red), 0..0).with_labels(labels);
            let reports = [
                report(labels.clone()).with_message(&said).finish(),
                report(labels.clone()).with_code(&said).finish(),
                report(labels.clone()).with_help(&said).finish(),
                report(labels.clone()).with_note(&said).finish(),
                report(labels.clone()).with_label(label(0..1, Some(&said))).finish(),
                Report::build(ReportKind::Custom(&said, Color::Red), 0..0).with_labels(labels.clone()).finish(),
            ];
            for report in reports {
                assert_eq!(assert_draws_alike(&source, &report, 0), ways, "{said}");
            }
            let source = Source::from(said + "\n" + source.text());
            assert_eq!(assert_draws_alike(&source, &report_of(labels, 0, PLAIN), 0), ways);
        }
    }

    #[test]
    fn notes_with_many_numbers_are_drawn_twice() {
        let source = Source::from("z\n".repeat(999));
        for (count, ways) in [(99, 2), (100, 1), (700, 1)] {
            let mut builder = Report::build(ReportKind::Advice, 0..0).with_config(PLAIN);
            (0..count).for_each(|_| builder.add_note("n"));
            let report = builder.with_labels([label(0..1, Some("x")), label(1996..1997, Some("y"))]).finish();
            assert_eq!(assert_draws_alike(&source, &report, 0), ways, "{count}");
        }
    }

    /// Numbers that look random.
    struct Random(u64);

    impl Random {
        /// A number below this one.
        fn below(&mut self, bound: usize) -> usize {
            self.0 = self.0.wrapping_mul(6364136223846793005).wrapping_add(1442695040888963407);
            (self.0 >> 33) as usize % bound
        }

        /// One of some values.
        fn one_of<T: Clone>(&mut self, values: &[T]) -> T {
            values[self.below(values.len())].clone()
        }

        fn bool(&mut self) -> bool {
            self.below(2) == 0
        }

        /// A text that may look like a number of a line, or like a part of a picture.
        fn text(&mut self) -> &'static str {
            self.one_of(&[
                "x", "", "6", "69", "699 698", "6999", ":699:6 ]", ":1000:1 ]", "x\n 1000 | y", "x\n 6990 | y",
                "x\r\n   699 \u{2502} y", "\n  ,-[ a:69999:1 ]\n", "\u{1b}[38;5;246m 6999", "4 5 6",
                "69 68 67 66 65 64 63 62",
            ])
        }

        /// A source in whose text the other one stands often, and between lines of one character. And where it does,
        /// in characters or in bytes, and at last the end.
        fn source(&mut self, in_bytes: bool) -> (Source<String>, Vec<usize>) {
            let (mut text, mut places) = (String::new(), Vec::new());
            let len = |text: &str| if in_bytes { text.len() } else { text.chars().count() };
            for _ in 0..2 + self.below(3) {
                places.push(len(&text));
                text += TEXT;
                text += if self.below(4) == 0 { self.text() } else { "" };
                text.push('\n');
                text += &"z\n".repeat(self.below(3000));
            }
            places.push(len(&text) - 1);
            (Source::from(text).with_display_line_offset(self.one_of(&[0, 7, 85, 990, 9_990, 12_345_678])), places)
        }

        /// A label that starts and ends near some places.
        fn label(&mut self, places: &[usize]) -> Label {
            let ends = [0; 2].map(|_| self.one_of(places) + self.below(TEXT.len()));
            let (start, end) = match self.below(4) {
                0 => (ends[0].min(ends[1]), ends[0].max(ends[1])),
                1 => (ends[0], ends[0] + self.below(TEXT.len())),
                _ => (ends[0], ends[0] + self.below(3)),
            };
            let word = (self.below(3) > 0).then(|| self.text());
            let color =
                self.one_of(&[Color::Red, Color::Blue, Color::Fixed(69), Color::Fixed(169), Color::Rgb(69, 6, 169)]);
            let [order, priority] = [0; 2].map(|_| self.below(3) as i32);
            label(start..end, word).with_color(color).with_order(order).with_priority(priority)
        }

        /// A report with these labels, which may say more.
        fn report(&mut self, labels: Vec<Label>, at: usize, config: Config) -> Report<'static> {
            let kind = ReportKind::Custom(self.text(), Color::Fixed(96));
            let kind = self.one_of(&[ReportKind::Error, kind]);
            let mut builder = Report::build(kind, at..at).with_config(config).with_labels(labels);
            if self.bool() {
                builder.set_message(self.text());
            }
            for _ in 0..self.one_of(&[0, 0, 1, 2, 12]) {
                builder.add_help(self.text());
            }
            for _ in 0..self.one_of(&[0, 0, 1, 2, 101]) {
                builder.add_note(self.text());
            }
            if self.bool() { builder.with_code(self.text()).finish() } else { builder.finish() }
        }

        fn config(&mut self, index: IndexType) -> Config {
            Config::new()
                .with_index_type(index)
                .with_char_set(self.one_of(&[CharSet::Ascii, CharSet::Unicode]))
                .with_color(self.bool())
                .with_compact(self.bool())
                .with_safe(self.bool())
                .with_cross_gap(self.bool())
                .with_underlines(self.bool())
                .with_lone_underlines(self.bool())
                .with_multiline_arrows(self.bool())
                .with_label_attach(self.one_of(&[LabelAttach::Start, LabelAttach::Middle, LabelAttach::End]))
                .with_context_lines(self.one_of(&[0, 0, 1, 2, 400]))
                .with_width(self.one_of(&[0, 0, 5, 12]))
        }
    }

    #[test]
    fn random_reports_over_lines_far_apart_are_drawn_as_over_the_source() {
        let mut random = Random(1);
        let mut counts = [0; 3]; // of reports, by the ways in which they are drawn with stand-ins
        for _ in 0..3000 {
            let index = random.one_of(&[IndexType::Char, IndexType::Byte]);
            let (source, places) = random.source(index == IndexType::Byte);
            let labels: Vec<Label> = (0..1 + random.below(5)).map(|_| random.label(&places)).collect();
            let at = random.one_of(&places) + random.below(TEXT.len());
            let config = random.config(index);
            let report = random.report(labels, at, config);
            counts[assert_draws_alike(&source, &report, at)] += 1;
        }
        assert!(counts.iter().all(|count| *count > 200), "{counts:?}");
    }
}
