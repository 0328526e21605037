//! Writing a report: the sources of its labels are fetched, and the library draws over them.

use crate::cache::Cache;
use crate::call::{Refusal, Room, NO_MEMORY};
use crate::held::Held;
use crate::lending::Lending;
use crate::report::Report;
use crate::span::Span;
use std::fmt::Formatter;
use std::io::{self, Write};

impl<S: Span> Report<'_, S> {
    /// Writes the picture, over the sources of a cache.
    ///
    /// The source of each label is fetched. A label whose source can't be had is left out, and a line on
    /// standard error says so. One that reaches past its source (by more than one), or that has an end
    /// inside a character, is left out.
    ///
    /// The picture is made whole before its first byte is written. The error is that of the writer, or one
    /// of kind `OutOfMemory` or `InvalidInput`, and then nothing was written: the line numbers of a source
    /// must fit `usize`.
    pub fn write<C: Cache<S::SourceId>, W: Write>(&self, cache: C, mut w: W) -> io::Result<()> {
        let mut room = Room::new();
        let picture = self.picture(cache, &mut room).map_err(error_of)?;
        w.write_all(picture)
    }

    /// Writes the picture as [`Report::write`] does. It is meant for standard output.
    pub fn write_for_stdout<C: Cache<S::SourceId>, W: Write>(&self, cache: C, w: W) -> io::Result<()> {
        self.write(cache, w)
    }

    /// The picture over the sources of a cache. One that can't be had is told on standard error.
    fn picture<'p, C: Cache<S::SourceId>>(&self, cache: C, room: &'p mut Room) -> Result<&'p [u8], Refusal> {
        let sources = self.prepared().members.len();
        let held = Held::for_sources(sources);
        if sources < 2 {
            return self.picture_holding(cache, &held, None, room);
        }
        held.with_formatter(|names| self.picture_holding(cache, &held, Some(names), room))
    }

    /// The same, where a formatter, if there is one, writes the names of sources to what is held of them.
    fn picture_holding<'p, C: Cache<S::SourceId>>(
        &self,
        mut cache: C,
        held: &Held,
        mut names: Option<&mut Formatter<'_>>,
        room: &'p mut Room,
    ) -> Result<&'p [u8], Refusal> {
        let mut lending = Lending::new(self, held);
        let mut next = lending.unplaced_from(0);
        while let Some(number) = next {
            let id = self.labels[number].span.source();
            let name = lending.hold_name(cache.display(id), &mut names);
            match cache.fetch(id) {
                Ok(source) => {
                    let excerpt = lending.place(number, source);
                    next = lending.unplaced_from(number + 1);
                    // (The cache lends one source at a time. So those in front of the last are copied.)
                    if lending.is_whole() {
                        return lending.picture(Some((name, &excerpt)), room);
                    }
                    lending.keep(name, &excerpt);
                }
                Err(error) => {
                    eprintln!("Unable to fetch source '{}': {error:?}", lending.take_name());
                    lending.miss(number);
                    next = lending.unplaced_from(number + 1);
                }
            }
        }
        lending.picture(None, room)
    }
}

/// The error of a refusal.
fn error_of(Refusal(status): Refusal) -> io::Error {
    match status {
        NO_MEMORY => io::Error::from(io::ErrorKind::OutOfMemory),
        _ => io::Error::new(io::ErrorKind::InvalidInput, format!("libsewarqo refuses the report: {status}")),
    }
}

#[cfg(test)]
mod tests {
    use crate::{CharSet, Config, FnCache, Label, Report, ReportKind, Source};
    use std::collections::HashMap;

    #[test]
    fn lines_far_apart_in_two_sources_have_their_numbers() {
        let texts = ["z\n".repeat(1200), "z\n".repeat(2000) + "y\n"];
        let held = HashMap::from([
            ("a", Source::from(texts[0].as_str())),
            ("b", Source::from(texts[1].as_str()).with_display_line_offset(9000)),
        ]);
        let cache = FnCache::new(|id: &&str| -> Result<&str, String> { Err(id.to_string()) }).with_sources(held);
        let label = |id, start, word: &str| Label::new((id, start..start + 1)).with_message(word);
        let mut picture = Vec::new();
        Report::build(ReportKind::Error, ("b", 4000..4000))
            .with_config(Config::new().with_color(false).with_char_set(CharSet::Ascii))
            .with_message("m")
            .with_labels([label("a", 0, "p"), label("a", 2398, "q"), label("b", 0, "r"), label("b", 3998, "s")])
            .finish()
            .write(cache, &mut picture)
            .unwrap();
        let rows = [
            "Error: m",
            "       ,-[ a:1:1 ]",
            "       |",
            "     1 | z",
            "       | |  ",
            "       | `-- p",
            "       | ",
            "  1200 | z",
            "       | |  ",
            "       | `-- q",
            "       |",
            "       |-[ b:11001:1 ]",
            "       |",
            "  9001 | z",
            "       | |  ",
            "       | `-- r",
            "       | ",
            " 11000 | z",
            "       | |  ",
            "       | `-- s",
            "-------'",
            "",
        ];
        assert_eq!(String::from_utf8(picture).unwrap(), rows.join("\n"));
    }
}
