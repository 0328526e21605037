//! What the library is lent of a report over sources.

use crate::call::{draw, GivenLabel, GivenSource, OptionalText, Refusal, Room, Text};
use crate::config::{CharSet, Config, IndexType};
use crate::excerpt::{Excerpt, FewLines, Lines, Shape, Spans};
use crate::held::Held;
use crate::members::Members;
use crate::numbers::{place_of, Numbers};
use crate::prepared::texts_of;
use crate::report::Report;
use crate::source::Source;
use crate::span::Span;
use std::borrow::Cow;
use std::fmt::{Display, Formatter};

/// The room of a picture without labels, and the greatest that strokes are given.
const LEAST_ROOM: usize = 256;
const MOST_ROOM: usize = 1 << 24;

/// The number of no source.
const NO_SOURCE: usize = usize::MAX;

/// What the library is lent of a report, and of its sources as far as they were fetched, but for the last.
pub(crate) struct Lending<'a, S: Span> {
    report: &'a Report<'a, S>,
    /// All labels, by the numbers of their sources. In one that was not fetched they have the offsets of their spans.
    labels: Cow<'a, [GivenLabel<'a>]>,
    /// The number of the source that the header's place is in, and where. It is in none before that was fetched.
    place: (usize, usize),
    /// Names and texts of sources, one behind another. Behind those that are kept stands the name of the last.
    held: &'a Held,
    kept: Vec<Kept>,
    /// How many bytes are held of the sources that are kept.
    kept_len: usize,
    /// How many sources were fetched, which the last of these is, and how many labels are in them.
    sources: usize,
    last: usize,
    placed: usize,
    /// The sources that could not be had so far. Those behind them were not asked for.
    missing: Vec<usize>,
    numbers: Numbers,
    /// Whether numbers of lines have stand-ins.
    has_stand_ins: bool,
    /// Whether offsets in bytes are lent as offsets in characters.
    in_chars: bool,
    shape: Shape,
}

/// A source in front of the last: its number, and how many bytes its name and its text have, which are held.
struct Kept {
    source: usize,
    name: Option<usize>,
    text: usize,
    line_offsets: [usize; 2],
}

/// How many bytes the name of the last source has, which is held behind all others, and what is lent of the source.
type Last<'l, 's> = Option<(Option<usize>, &'l Excerpt<'s>)>;

impl<'a, S: Span> Lending<'a, S> {
    /// A report none of whose sources was fetched.
    pub(crate) fn new(report: &'a Report<'a, S>, held: &'a Held) -> Lending<'a, S> {
        Lending {
            report,
            labels: Cow::Borrowed(&report.prepared().labels),
            place: (NO_SOURCE, 0),
            held,
            kept: Vec::with_capacity(report.prepared().members.len().saturating_sub(1)),
            kept_len: 0,
            sources: 0,
            last: NO_SOURCE,
            placed: 0,
            missing: Vec::new(),
            numbers: Numbers::default(),
            has_stand_ins: false,
            in_chars: false,
            shape: Shape::default(),
        }
    }

    fn config(&self) -> &'a Config {
        &self.report.content.config
    }

    /// The number of a label's source.
    fn source_of(&self, label: usize) -> usize {
        self.report.prepared().labels[label].source
    }

    /// The first label from one on whose source was not fetched. All in front of that one were asked for.
    #[inline]
    pub(crate) fn unplaced_from(&self, label: usize) -> Option<usize> {
        let prepared = self.report.prepared();
        if self.missing.is_empty() {
            return prepared.members.get(self.sources).map(|members| members.first);
        }
        (label..prepared.labels.len()).find(|number| !self.is_placed(*number))
    }

    /// Whether a label's source was fetched.
    fn is_placed(&self, label: usize) -> bool {
        let source = self.source_of(label);
        source < self.sources + self.missing.len() && !self.missing.contains(&source)
    }

    /// Whether the source of each label was fetched.
    pub(crate) fn is_whole(&self) -> bool {
        self.placed == self.labels.len()
    }

    /// Holds the name of a source, if it has one, by a formatter if there is one. Returns how many bytes it has.
    #[inline]
    pub(crate) fn hold_name(
        &self,
        name: Option<impl Display>,
        formatter: &mut Option<&mut Formatter<'_>>,
    ) -> Option<usize> {
        self.held.push_name(name?, formatter);
        Some(self.held.len() - self.kept_len)
    }

    /// Takes back the name that was held last. It is empty if the source has none.
    pub(crate) fn take_name(&self) -> String {
        self.held.split_off(self.kept_len)
    }

    /// Holds what is lent of the source that was fetched last.
    #[inline]
    pub(crate) fn keep(&mut self, name: Option<usize>, excerpt: &Excerpt<'_>) {
        self.held.push(&excerpt.text);
        self.kept_len = self.held.len();
        let (source, text) = (self.last, excerpt.text.len());
        self.kept.push(Kept { source, name, text, line_offsets: excerpt.line_offsets });
    }

    /// Takes note that a label's source can't be had. The label is left out, wherever the source may come from later.
    pub(crate) fn miss(&mut self, label: usize) {
        if !self.is_missing(label) {
            self.missing.push(self.source_of(label));
        }
        self.labels.to_mut()[label].source = NO_SOURCE;
    }

    fn is_missing(&self, label: usize) -> bool {
        self.missing.contains(&self.source_of(label))
    }

    /// What is lent of a label's source, which is that of others behind it too. All spans of the report that are in
    /// it get their places.
    #[inline]
    pub(crate) fn place<'s, I: AsRef<str>>(&mut self, first: usize, source: &'s Source<I>) -> Excerpt<'s> {
        self.last = if self.missing.is_empty() { self.sources } else { self.source_of(first) };
        let members = &self.report.prepared().members[self.last];
        let rest;
        let members = if first == members.first {
            members
        } else {
            rest = self.had_at_last(members, first);
            &rest
        };
        let config = self.config();
        self.sources += 1;
        self.placed += members.count;
        let lines = match FewLines::of(source, members.outer.ends(), members.spans(), config) {
            Ok(lines) => lines,
            Err(outer) => return self.place_apart(members, source, outer),
        };
        let has_longer = members.outer.longest > lines.longest;
        let over = if has_longer { self.count_longer(members, lines.longest) } else { 0 };
        self.shape = self.shape.with(Shape { lines: lines.count, longest: lines.longest, over });
        if lines.start > 0 {
            self.move_by(members, lines.start);
        }
        if let Some(at) = members.place {
            self.place = (members.source, at - lines.start);
        }
        lines.excerpt()
    }

    /// Of the labels in a source that was missing those from a label on.
    #[cold]
    fn had_at_last(&mut self, members: &Members, first: usize) -> Members {
        self.missing.retain(|source| *source != members.source);
        members.from(first, &self.labels)
    }

    /// How many labels in a source are longer than a line, of which some are.
    #[inline(never)]
    fn count_longer(&self, members: &Members, line: usize) -> usize {
        members.of(&self.labels).filter(|label| label.end - label.start > line).count()
    }

    /// Moves the labels in a source to what is lent of it, which starts at this offset.
    #[inline]
    fn move_by(&mut self, members: &Members, start: usize) {
        for label in members.of_mut(self.labels.to_mut()) {
            label.start -= start;
            label.end -= start;
        }
    }

    /// Moves the labels in a source to lines apart, and the header's place, if it is there. Returns what is lent.
    #[inline(never)]
    fn place_apart<I: AsRef<str>>(&mut self, members: &Members, source: &Source<I>, outer: Lines) -> Excerpt<'static> {
        let labels = members.of(&self.labels).map(|label| [label.start, last_of(label)]);
        let ends = labels.chain(members.place.map(|at| [at; 2])).collect();
        let is_only = self.report.prepared().members.len() == 1;
        let mut spans = Spans { ends, has_place: members.place.is_some(), in_chars: is_only };
        let config = self.config();
        let (excerpt, shape) = Excerpt::of_lines_apart(source, &mut spans, outer, &mut self.numbers, config);
        self.has_stand_ins |= excerpt.has_stand_ins();
        self.in_chars = spans.in_chars;
        self.shape = self.shape.with(shape);
        for (label, [start, last]) in members.of_mut(self.labels.to_mut()).zip(spans.labels()) {
            let is_empty = label.start == label.end;
            label.start = *start;
            label.end = last.saturating_add(usize::from(!is_empty));
        }
        if let Some([at, _]) = spans.place() {
            self.place = (members.source, *at);
        }
        excerpt
    }

    /// The picture over the sources that are kept and the last, which is there if each was fetched.
    pub(crate) fn picture<'p>(&mut self, last: Last<'_, '_>, room: &'p mut Room) -> Result<&'p [u8], Refusal> {
        if !self.is_whole() {
            self.leave_out_missing();
        }
        if !self.has_stand_ins {
            return self.drawn(last, 0, room);
        }
        let picture = match last.and_then(|last| self.drawn_by_a_mark(last, room)) {
            Some(picture) => picture?,
            None => self.drawn_twice(last, room)?,
        };
        Ok(room.hold(picture))
    }

    /// The picture over the last source, if it is the only one, with the lines' own numbers: it is drawn once, where
    /// stand-ins have a mark.
    fn drawn_by_a_mark(
        &self,
        (name, excerpt): (Option<usize>, &Excerpt<'_>),
        room: &mut Room,
    ) -> Option<Result<Vec<u8>, Refusal>> {
        let content = &self.report.content;
        let taken = excerpt.line_offsets[0] + 1;
        // (Else the numbers of helps and notes have fewer digits than stand-ins.)
        if !self.kept.is_empty() || content.helps.len().max(content.notes.len()) >= taken {
            return None;
        }
        let mark = self.numbers.mark(taken, |digits| self.says(digits, excerpt))?;
        let marked = Excerpt { text: Cow::Borrowed(&excerpt.text), line_offsets: [mark.first - 1; 2] };
        let picture = self.drawn(Some((name, &marked)), 0, room);
        Some(picture.map(|picture| self.numbers.put_for(&mark, taken, picture)))
    }

    /// Whether some digits are in a text of the report, in what is held or in what is lent of the last source.
    fn says(&self, digits: &[u8], excerpt: &Excerpt<'_>) -> bool {
        let has = |text: &str| place_of(digits, text.as_bytes()).is_some();
        has(&excerpt.text) || has(&self.held.text()) || texts_of(&self.report.content, &self.report.labels).any(has)
    }

    /// The picture with the lines' own numbers, which stand where two pictures differ.
    fn drawn_twice(&mut self, last: Last<'_, '_>, room: &mut Room) -> Result<Vec<u8>, Refusal> {
        let mut other = Room::new();
        let picture = self.drawn(last, 0, room)?;
        let beside = self.drawn(last, 1, &mut other)?;
        Ok(self.numbers.put_into(picture, beside))
    }

    /// Leaves out the labels whose sources were not fetched, and numbers those that are kept one after another.
    fn leave_out_missing(&mut self) {
        let mut numbers = vec![NO_SOURCE; self.report.prepared().members.len()];
        for (number, it) in self.kept.iter().enumerate() {
            numbers[it.source] = number;
        }
        let number_of = |source: usize| numbers.get(source).copied().unwrap_or(NO_SOURCE);
        self.place.0 = number_of(self.place.0);
        self.labels.to_mut().retain_mut(|label| {
            label.source = number_of(label.source);
            label.source != NO_SOURCE
        });
    }

    /// A first or a second drawing.
    fn drawn<'p>(&self, last: Last<'_, '_>, turn: usize, room: &'p mut Room) -> Result<&'p [u8], Refusal> {
        let (source, start) = self.place;
        let mut report = self.report.prepared().report(&self.labels, source, start);
        if self.in_chars {
            report.flags = self.config().with_index_type(IndexType::Char).flags();
        }
        let held = self.held.text();
        match last {
            Some((name, excerpt)) if self.kept.is_empty() => {
                let name = name.map(|len| &held.as_bytes()[..len]);
                let source = given(name, excerpt.text.as_bytes(), excerpt.line_offsets[turn]);
                draw(&report, &[source], self.len(), room)
            }
            _ => draw(&report, &self.given_sources(last, turn, held.as_bytes()), self.len(), room),
        }
    }

    /// All sources as the library is lent them. Their names and their texts are held one behind another.
    fn given_sources<'t>(&self, last: Last<'t, '_>, turn: usize, mut held: &'t [u8]) -> Vec<GivenSource<'t>> {
        let mut sources = Vec::with_capacity(self.kept.len() + 1);
        sources.extend(self.kept.iter().map(|it| {
            let (name, behind) = held.split_at(it.name.unwrap_or(0));
            let (text, behind) = behind.split_at(it.text);
            held = behind;
            given(it.name.map(|_| name), text, it.line_offsets[turn])
        }));
        sources.extend(last.map(|(name, excerpt)| {
            given(name.map(|len| &held[..len]), excerpt.text.as_bytes(), excerpt.line_offsets[turn])
        }));
        sources
    }

    /// Bytes that most pictures fit: strokes for each row and column, and what is said. They take memory only as far as
    /// the picture is written there.
    fn len(&self) -> usize {
        let config = self.config();
        let stroke = if config.char_set == CharSet::Ascii { 1 } else { 3 };
        let painted = if config.color { 4 * stroke } else { stroke };
        let rows = self.shape.lines + 3 * self.labels.len();
        let columns = 64 + self.shape.longest + 4 * self.shape.over;
        let strokes = rows.saturating_mul(columns).saturating_mul(painted);
        LEAST_ROOM + strokes.min(MOST_ROOM) + self.report.prepared().said
    }
}

/// A source as the library is lent it.
#[inline]
fn given<'t>(name: Option<&'t [u8]>, text: &'t [u8], line_offset: usize) -> GivenSource<'t> {
    GivenSource { name: OptionalText::from(name.map(Text::from)), text: Text::from(text), line_offset }
}

/// The offset of the last character of a label, or its start if it has none.
fn last_of(label: &GivenLabel<'_>) -> usize {
    label.end.saturating_sub(1).max(label.start)
}

#[cfg(test)]
impl Report<'_> {
    /// The pictures over a source without a name that is lent so, in which these are the spans of labels and the place.
    /// Where numbers have stand-ins it is drawn twice, and then by a mark if there is one.
    pub(crate) fn pictures_over(&self, excerpt: Excerpt<'_>, spans: &Spans, numbers: Numbers) -> Vec<String> {
        let held = Held::for_sources(1);
        let mut lending = Lending::new(self, &held);
        for (label, [start, last]) in lending.labels.to_mut().iter_mut().zip(&spans.ends) {
            (label.start, label.end) = (*start, last + usize::from(label.start < label.end));
        }
        lending.place = (0, spans.ends[self.labels.len()][0]);
        (lending.sources, lending.placed) = (1, self.labels.len());
        (lending.numbers, lending.in_chars) = (numbers, spans.in_chars);
        let last = (None, &excerpt);
        let mut room = Room::new();
        let pictures = if excerpt.has_stand_ins() {
            let twice = lending.drawn_twice(Some(last), &mut room);
            let by_a_mark = lending.drawn_by_a_mark(last, &mut room);
            [twice].into_iter().chain(by_a_mark).collect()
        } else {
            vec![lending.picture(Some(last), &mut room).map(<[u8]>::to_vec)]
        };
        let text_of = |picture: Result<Vec<u8>, Refusal>| {
            String::from_utf8(picture.unwrap_or_else(|Refusal(status)| panic!("status {status}"))).unwrap()
        };
        pictures.into_iter().map(text_of).collect()
    }
}

#[cfg(test)]
mod tests {
    use super::{Kept, Lending};
    use crate::call::Room;
    use crate::held::Held;
    use crate::{Color, Config, FnCache, Label, Report, ReportKind};
    use std::ops::Range;

    type Place = (usize, Range<usize>);

    /// The texts of sources by their ids.
    const TEXTS: [&str; 9] =
        ["a", "b\nc\n", "", "d\n\n\n\ne\n", "f", "g\u{e9}\nh", "i\n\n\n\n\n\n\n\n\nj", "k", "l\r\nm"];

    /// The picture over whole sources. Those behind the texts are not there.
    fn picture_over_whole(report: &Report<Place>) -> Vec<u8> {
        let held = Held::for_sources(TEXTS.len());
        let mut lending = Lending::new(report, &held);
        for members in &report.prepared().members {
            let id = report.labels[members.first].span.0;
            if id >= TEXTS.len() {
                continue;
            }
            lending.placed += members.count;
            if let Some(at) = members.place {
                lending.place = (members.source, at);
            }
            let name = lending.hold_name(Some(id), &mut None);
            held.push(TEXTS[id]);
            lending.kept_len = held.len();
            lending.kept.push(Kept { source: members.source, name, text: TEXTS[id].len(), line_offsets: [0; 2] });
        }
        let mut room = Room::new();
        let picture = lending.picture(None, &mut room);
        picture.unwrap_or_else(|refusal| panic!("status {}", refusal.0)).to_vec()
    }

    #[test]
    fn reports_over_many_sources_are_drawn_as_over_whole_ones() {
        let mut seed: u64 = 1;
        let mut below = |bound: usize| {
            seed = seed.wrapping_mul(6364136223846793005).wrapping_add(1442695040888963407);
            (seed >> 33) as usize % bound
        };
        for _ in 0..5000 {
            let ids = 1 + below(TEXTS.len() + 2);
            let labels: Vec<Label<Place>> = (0..below(12))
                .map(|number| {
                    let (id, start) = (below(ids), below(14));
                    let label = Label::new((id, start..start + below(5))).with_color(Color::Fixed(number as u8));
                    if below(3) == 0 { label } else { label.with_message(number).with_order(below(2) as i32) }
                })
                .collect();
            let report = Report::build(ReportKind::Error, (below(ids), 0..below(9)))
                .with_config(Config::new().with_context_lines(below(2)))
                .with_labels(labels)
                .finish();
            let text_of = |id: &usize| TEXTS.get(*id).copied().ok_or("a missing source");
            let mut picture = Vec::new();
            report.write(FnCache::new(text_of), &mut picture).unwrap();
            let [got, want] = [picture, picture_over_whole(&report)].map(|it| String::from_utf8(it).unwrap());
            assert_eq!(got, want);
        }
    }
}
