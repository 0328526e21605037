//! Which labels of a report are in one source.

use crate::call::GivenLabel;
use crate::excerpt::Ends;
use crate::label::Label;
use crate::span::Span;
use crate::table::Table;

/// The labels of a report that are in one source.
#[derive(Clone, Copy)]
pub(crate) struct Members {
    /// The number of the source, from 0 in the order of first labels.
    pub(crate) source: usize,
    pub(crate) first: usize,
    last: usize,
    pub(crate) count: usize,
    /// The place that the header names, if it is in this source.
    pub(crate) place: Option<usize>,
    /// The outermost ends of the labels and of the place.
    pub(crate) outer: Outer,
}

impl Members {
    /// None in a source.
    fn none(source: usize) -> Members {
        Members { source, first: usize::MAX, last: 0, count: 0, place: None, outer: Outer::default() }
    }

    fn add(&mut self, number: usize, label: &GivenLabel<'_>) {
        self.first = self.first.min(number);
        self.last = number;
        self.count += 1;
        self.outer.add(label.start, label.end);
    }

    fn set_place(&mut self, at: usize) {
        self.place = Some(at);
        self.outer.add(at, at);
    }

    /// Those from a label on.
    pub(crate) fn from(&self, first: usize, labels: &[GivenLabel<'_>]) -> Members {
        let mut found = Members::none(self.source);
        for (number, label) in labels.iter().enumerate().take(self.last + 1).skip(first) {
            if label.source == self.source {
                found.add(number, label);
            }
        }
        self.place.into_iter().for_each(|at| found.set_place(at));
        found
    }

    /// How many spans there are, with that of the place.
    #[inline]
    pub(crate) fn spans(&self) -> usize {
        self.count + usize::from(self.place.is_some())
    }

    #[inline]
    pub(crate) fn of<'l, 'a>(&self, labels: &'l [GivenLabel<'a>]) -> impl Iterator<Item = &'l GivenLabel<'a>> {
        let source = self.source;
        labels[self.first..=self.last].iter().filter(move |label| label.source == source)
    }

    #[inline]
    pub(crate) fn of_mut<'l, 'a>(
        &self,
        labels: &'l mut [GivenLabel<'a>],
    ) -> impl Iterator<Item = &'l mut GivenLabel<'a>> {
        let source = self.source;
        labels[self.first..=self.last].iter_mut().filter(move |label| label.source == source)
    }
}

/// Of spans: the first offset, the one behind the last character, and how long the longest is.
#[derive(Clone, Copy)]
pub(crate) struct Outer {
    first: usize,
    past: usize,
    pub(crate) longest: usize,
}

impl Default for Outer {
    /// That of no spans.
    fn default() -> Outer {
        Outer { first: usize::MAX, past: 0, longest: 0 }
    }
}

impl Outer {
    /// Adds a span. One without a character reaches as far as one with the character that it is at.
    #[inline] // (It is called in loops of each crate that has spans of its own.)
    fn add(&mut self, start: usize, end: usize) {
        self.first = self.first.min(start);
        self.past = self.past.max(end.saturating_add(usize::from(start == end)));
        self.longest = self.longest.max(end - start);
    }

    /// The offsets of the first and the last character.
    #[inline]
    pub(crate) fn ends(&self) -> Ends {
        [self.first, self.past - 1]
    }
}

/// The labels in each source, by its number. Labels are given the numbers of their sources.
pub(crate) fn members_of<S: Span>(labels: &[Label<S>], place: &S, given: &mut [GivenLabel<'_>]) -> Vec<Members> {
    let mut sources = Sources { labels, members: Vec::new(), table: Table::default() };
    let mut source = 0;
    for (number, label) in labels.iter().enumerate() {
        if number == 0 || labels[number - 1].span.source() != label.span.source() {
            source = sources.number_of(&label.span).unwrap_or_else(|| sources.add(&label.span));
        }
        given[number].source = source;
        sources.members[source].add(number, &given[number]);
    }
    if let Some(source) = sources.number_of(place) {
        sources.members[source].set_place(place.start());
    }
    sources.members
}

/// The sources of labels, as far as these are read.
struct Sources<'a, S> {
    labels: &'a [Label<S>],
    members: Vec<Members>,
    /// Their numbers, where there are more than a few.
    table: Table,
}

/// Sources that are looked for one by one, which takes less than their marks.
const FEW_SOURCES: usize = 4;

impl<S: Span> Sources<'_, S> {
    /// The number of a span's source, if labels that were read are in it.
    fn number_of(&self, span: &S) -> Option<usize> {
        let is_it = |number: usize| self.source(number) == span.source();
        if self.members.len() <= FEW_SOURCES {
            (0..self.members.len()).find(|number| is_it(*number))
        } else {
            self.table.find(span.source_mark(), is_it)
        }
    }

    /// The id of a source.
    fn source(&self, number: usize) -> &S::SourceId {
        self.labels[self.members[number].first].span.source()
    }

    /// Adds the source of a span. Returns its number.
    fn add(&mut self, span: &S) -> usize {
        let number = self.members.len();
        if number == FEW_SOURCES {
            for it in &self.members {
                self.table.add(self.labels[it.first].span.source_mark());
            }
        }
        if number >= FEW_SOURCES {
            self.table.add(span.source_mark());
        }
        self.members.push(Members::none(number));
        number
    }
}

#[cfg(test)]
mod tests {
    use super::members_of;
    use crate::prepared::label_without_source;
    use crate::{Label, Span};

    /// A span whose id has no mark of its own.
    struct Unmarked(&'static str);

    impl Span for Unmarked {
        type SourceId = str;

        fn source(&self) -> &str {
            self.0
        }

        fn start(&self) -> usize {
            0
        }

        fn end(&self) -> usize {
            0
        }
    }

    /// The numbers of these labels' sources, and of each source its first and its last label and how many it has. The
    /// last span is the header's place. Its source is told too.
    fn numbered<S: Span>(spans: impl IntoIterator<Item = S>) -> (Vec<usize>, Vec<[usize; 3]>, Option<usize>) {
        let mut labels: Vec<Label<S>> = spans.into_iter().map(Label::new).collect();
        let place = labels.pop().unwrap().span;
        let mut given: Vec<_> = labels.iter().map(label_without_source).collect();
        let members = members_of(&labels, &place, &mut given);
        assert!(members.iter().enumerate().all(|(number, it)| it.source == number));
        let numbers = given.iter().map(|label| label.source).collect();
        let ends = members.iter().map(|it| [it.first, it.last, it.count]).collect();
        (numbers, ends, members.iter().position(|it| it.place.is_some()))
    }

    #[test]
    fn sources_are_numbered_by_their_first_labels() {
        let ids = ["b", "a", "b", "b", "c", "a", "d", "c"];
        let want = (vec![0, 1, 0, 0, 2, 1, 3], vec![[0, 3, 3], [1, 5, 2], [4, 4, 1], [6, 6, 1]], Some(2));
        assert_eq!(numbered(ids.map(|id| (id, 0..0))), want);
        assert_eq!(numbered(ids.map(|id| (id.to_string(), 0..=0))), want);
        assert_eq!(numbered(ids.map(Unmarked)), want);
    }

    #[test]
    fn labels_may_be_in_one_source_or_in_none() {
        assert_eq!(numbered(["a"; 4].map(|id| (id, 0..0))), (vec![0; 3], vec![[0, 2, 3]], Some(0)));
        assert_eq!(numbered([0..1, 2..3]), (vec![0], vec![[0, 0, 1]], Some(0)));
        assert_eq!(numbered([("a", 0..0), ("b", 0..0)]), (vec![0], vec![[0, 0, 1]], None));
        assert_eq!(numbered([("a", 0..0)]), (vec![], vec![], None));
    }

    #[test]
    fn many_sources_are_told_apart() {
        let spans: Vec<_> = (0..3001).map(|number| (number % 1000, 0..0)).collect();
        let unmarked: Vec<_> = spans.iter().map(|(id, _)| Unmarked(id.to_string().leak())).collect();
        let want = (
            (0..3000).map(|label| label % 1000).collect(),
            (0..1000).map(|source| [source, 2000 + source, 3]).collect(),
            Some(0),
        );
        assert_eq!(numbered(spans), want);
        assert_eq!(numbered(unmarked), want);
    }
}
