//! Pieces of sources.

use std::fmt::Debug;
use std::hash::{Hash, Hasher};
use std::ops::{Range, RangeInclusive};

/// A piece of a source.
///
/// Offsets count characters from 0, or bytes where the report's configuration says so. The end is
/// exclusive, and at least the start.
pub trait Span {
    /// What a source is known by.
    type SourceId: PartialEq + ToOwned + ?Sized;

    /// The id of the source that the span is in.
    fn source(&self) -> &Self::SourceId;

    /// Where it starts.
    fn start(&self) -> usize;

    /// Where it ends.
    fn end(&self) -> usize;

    /// How far its end is behind its start.
    fn len(&self) -> usize {
        self.end().saturating_sub(self.start())
    }

    /// Whether its length is 0.
    fn is_empty(&self) -> bool {
        self.len() == 0
    }

    /// Whether an offset is in it.
    fn contains(&self, offset: usize) -> bool {
        self.start() <= offset && offset < self.end()
    }

    /// A number that goes by the id of the source: equal ids have equal ones. The more ids have numbers of their own,
    /// the quicker are labels in many sources sorted by these. (`ariadne` 0.6.0 has no such call.)
    #[doc(hidden)]
    fn source_mark(&self) -> u64 {
        0
    }
}

/// The mark of an id.
fn mark_of<Id: Hash>(id: &Id) -> u64 {
    let mut mark = Mark(0xcbf2_9ce4_8422_2325);
    id.hash(&mut mark);
    mark.finish()
}

/// How many bytes of a text count for its mark: its last, in which paths differ.
const MARKED: usize = 32;

/// A mark in the making: by FNV-1a, which takes little for so few bytes.
struct Mark(u64);

impl Hasher for Mark {
    fn write(&mut self, bytes: &[u8]) {
        for byte in &bytes[bytes.len().saturating_sub(MARKED)..] {
            self.0 = (self.0 ^ u64::from(*byte)).wrapping_mul(0x0100_0000_01b3);
        }
    }

    /// The high bits are those that most bytes reach.
    fn finish(&self) -> u64 {
        self.0 ^ (self.0 >> 32)
    }
}

impl Span for Range<usize> {
    type SourceId = ();

    fn source(&self) -> &() {
        &()
    }

    fn start(&self) -> usize {
        self.start
    }

    fn end(&self) -> usize {
        self.end
    }
}

/// The end of the range to `usize::MAX` is `usize::MAX`.
impl Span for RangeInclusive<usize> {
    type SourceId = ();

    fn source(&self) -> &() {
        &()
    }

    fn start(&self) -> usize {
        *RangeInclusive::start(self)
    }

    fn end(&self) -> usize {
        RangeInclusive::end(self).saturating_add(1)
    }
}

impl<Id: Debug + Hash + Eq + ToOwned> Span for (Id, Range<usize>) {
    type SourceId = Id;

    fn source(&self) -> &Id {
        &self.0
    }

    fn start(&self) -> usize {
        self.1.start
    }

    fn end(&self) -> usize {
        self.1.end
    }

    fn source_mark(&self) -> u64 {
        mark_of(&self.0)
    }
}

/// The end of the range to `usize::MAX` is `usize::MAX`.
impl<Id: Debug + Hash + Eq + ToOwned> Span for (Id, RangeInclusive<usize>) {
    type SourceId = Id;

    fn source(&self) -> &Id {
        &self.0
    }

    fn start(&self) -> usize {
        Span::start(&self.1)
    }

    fn end(&self) -> usize {
        Span::end(&self.1)
    }

    fn source_mark(&self) -> u64 {
        mark_of(&self.0)
    }
}
