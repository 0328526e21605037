//! The same labels drawn by codespan-reporting, whose offsets count bytes.

use crate::workloads::{Job, Mark};
use codespan_reporting::diagnostic::{Diagnostic, Label};
use codespan_reporting::files::{Files, SimpleFile, SimpleFiles};
use codespan_reporting::term::termcolor::{Ansi, NoColor};
use codespan_reporting::term::{emit, Chars, Config};
use std::ops::Range;

pub fn index(text: &str) -> SimpleFile<&str, &str> {
    SimpleFile::new("<unknown>", text)
}

/// Where each character of a text begins, and its end.
fn starts(text: &str) -> Vec<usize> {
    text.char_indices().map(|(start, _)| start).chain([text.len()]).collect()
}

/// The marks' spans in bytes.
fn spans(job: &Job) -> Vec<Range<usize>> {
    let starts: Vec<_> = if job.in_bytes { vec![] } else { job.sources.iter().map(|(_, text)| starts(text)).collect() };
    let in_bytes = |mark: &Mark, offset: usize| {
        starts.get(mark.source).map_or(offset, |starts| starts[offset.min(starts.len() - 1)])
    };
    job.marks.iter().map(|mark| in_bytes(mark, mark.start)..in_bytes(mark, mark.end)).collect()
}

/// Draws a job over these files, whose sources have these ids.
fn drawn<Id, F>(job: &Job, files: F, ids: Vec<Id>) -> Box<dyn FnMut(&mut Vec<u8>) + '_>
where
    Id: Copy + PartialEq + 'static,
    F: for<'f> Files<'f, FileId = Id> + 'static,
{
    let chars = if job.is_colored { Chars::box_drawing() } else { Chars::ascii() };
    let config = Config { chars, ..Config::default() };
    let labels = job.marks.iter().zip(spans(job)).map(|(mark, span)| {
        let label = Label::primary(ids[mark.source], span);
        mark.message.iter().fold(label, |label, message| label.with_message(message))
    });
    let diagnostic = Diagnostic::error().with_message(&job.title).with_labels(labels.collect());
    Box::new(move |out| {
        let written = if job.is_colored {
            emit(&mut Ansi::new(out), &config, &files, &diagnostic)
        } else {
            emit(&mut NoColor::new(out), &config, &files, &diagnostic)
        };
        written.expect("a picture")
    })
}

pub fn writer(job: &Job) -> Box<dyn FnMut(&mut Vec<u8>) + '_> {
    if job.sources[0].0.is_none() {
        return drawn(job, SimpleFile::new("<unknown>", job.sources[0].1.clone()), vec![()]);
    }
    let mut files = SimpleFiles::new();
    let named = |(name, text): &(Option<String>, String)| files.add(name.clone().expect("a name"), text.clone());
    let ids = job.sources.iter().map(named).collect();
    drawn(job, files, ids)
}
