//! The workloads drawn by the calls of `ariadne` 0.6.0: the original's, or those of bindings/rust.

use crate::workloads::{Job, Mark};
use ariadne::{sources, CharSet, Color, Config, IndexType, Label, Report, ReportKind, Source, Span};
use std::ops::Range;

pub fn index(text: &str) -> Source<&str> {
    Source::from(text)
}

fn config(job: &Job) -> Config {
    Config::new()
        .with_color(job.is_colored)
        .with_char_set(if job.is_colored { CharSet::Unicode } else { CharSet::Ascii })
        .with_index_type(if job.in_bytes { IndexType::Byte } else { IndexType::Char })
}

fn report<S: Span + Clone>(job: &Job, span: impl Fn(&Mark) -> S) -> Report<'_, S> {
    let builder = Report::build(ReportKind::Error, span(&job.marks[0]));
    let mut builder = builder.with_config(config(job)).with_message(&job.title);
    for (number, mark) in job.marks.iter().enumerate() {
        let label = Label::new(span(mark));
        let label = mark.message.iter().fold(label, |label, message| label.with_message(message));
        let color = Color::Fixed(17 + (number % 200) as u8);
        builder.add_label(if job.is_colored { label.with_color(color) } else { label });
    }
    builder.finish()
}

pub fn writer(job: &Job) -> Box<dyn FnMut(&mut Vec<u8>) + '_> {
    let range = |mark: &Mark| mark.start..mark.end;
    let name = move |number: usize| job.sources[number].0.clone().expect("a name");
    if job.sources[0].0.is_none() {
        let source = index(&job.sources[0].1);
        let report = report(job, range);
        return Box::new(move |out| report.write(&source, out).expect("a picture"));
    }
    let mut cache = sources(job.sources.iter().enumerate().map(move |(it, (_, text))| (name(it), text)));
    let report: Report<(String, Range<usize>)> = report(job, |mark| (name(mark.source), range(mark)));
    Box::new(move |out| report.write(&mut cache, out).expect("a picture"))
}
