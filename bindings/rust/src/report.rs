//! Reports, and how they are built.

use crate::cache::Cache;
use crate::color::Color;
use crate::config::Config;
use crate::label::Label;
use crate::prepared::Prepared;
use crate::span::Span;
use std::fmt::{self, Debug, Display, Formatter};
use std::ops::Range;
use std::{io, mem};

/// What kind of report it is.
#[derive(Clone, Copy, Debug, PartialEq, Eq)]
pub enum ReportKind<'a> {
    /// Something is wrong.
    Error,
    /// Something is likely to be wrong.
    Warning,
    /// Something could be done better.
    Advice,
    /// A kind of one's own, with the name and the colour that it is shown in.
    Custom(&'a str, Color),
}

impl Display for ReportKind<'_> {
    fn fmt(&self, f: &mut Formatter<'_>) -> fmt::Result {
        f.write_str(match self {
            ReportKind::Error => "Error",
            ReportKind::Warning => "Warning",
            ReportKind::Advice => "Advice",
            ReportKind::Custom(name, _) => name,
        })
    }
}

/// What a report says, but for its labels and its span.
pub(crate) struct Content<'a> {
    pub(crate) kind: ReportKind<'a>,
    pub(crate) code: Option<String>,
    pub(crate) message: Option<String>,
    pub(crate) notes: Vec<String>,
    pub(crate) helps: Vec<String>,
    pub(crate) config: Config,
}

impl Content<'_> {
    /// Writes the debug text that `ariadne` 0.6.0 has of a value of this type.
    fn write_debug(&self, name: &str, f: &mut Formatter<'_>) -> fmt::Result {
        f.debug_struct(name)
            .field("kind", &self.kind)
            .field("code", &self.code)
            .field("msg", &self.message)
            .field("notes", &self.notes)
            .field("help", &self.helps)
            .field("config", &self.config)
            .finish()
    }
}

/// A report that is ready to be written.
pub struct Report<'a, S: Span = Range<usize>> {
    pub(crate) content: Content<'a>,
    pub(crate) labels: Vec<Label<S>>,
    /// What is lent of the content, of the labels and of the place that the header names.
    prepared: Prepared<'static>,
}

impl<'a, S: Span> Report<'a, S> {
    fn new(content: Content<'a>, span: S, labels: Vec<Label<S>>) -> Report<'a, S> {
        let prepared = Prepared::new(&content, &span, &labels);
        // SAFETY: the lifetime alone changes. What is prepared points to the bytes of texts: those of strings of
        // `content` and of `labels`, which are on the heap, and the name of a kind, which lives for 'a. To move the
        // report moves none of these bytes. No call changes the report's strings or takes one out, and they go when
        // the report does; what is prepared reads nothing when it goes. `prepared` lends it for as long as the
        // report is borrowed.
        let prepared = unsafe { mem::transmute::<Prepared<'_>, Prepared<'static>>(prepared) };
        Report { content, labels, prepared }
    }

    /// What is lent of the report beside its sources, as long as the report is borrowed.
    pub(crate) fn prepared(&self) -> &Prepared<'_> {
        &self.prepared
    }
}

impl<S: Span> Report<'_, S> {
    /// Begins a report. `span` is the place that the header names, where labels are drawn over its source.
    pub fn build(kind: ReportKind, span: S) -> ReportBuilder<S> {
        let content = Content {
            kind,
            code: None,
            message: None,
            notes: Vec::new(),
            helps: Vec::new(),
            config: Config::new(),
        };
        ReportBuilder { content, span, labels: Vec::new() }
    }

    /// Writes the picture to standard error.
    pub fn eprint<C: Cache<S::SourceId>>(&self, cache: C) -> io::Result<()> {
        self.write(cache, io::stderr())
    }

    /// Writes the picture to standard output.
    pub fn print<C: Cache<S::SourceId>>(&self, cache: C) -> io::Result<()> {
        self.write_for_stdout(cache, io::stdout())
    }
}

impl<S: Span> Debug for Report<'_, S> {
    fn fmt(&self, f: &mut Formatter<'_>) -> fmt::Result {
        self.content.write_debug("Report", f)
    }
}

/// A report in the making.
pub struct ReportBuilder<'a, S: Span> {
    content: Content<'a>,
    span: S,
    labels: Vec<Label<S>>,
}

impl<'a, S: Span> ReportBuilder<'a, S> {
    /// The report with this code, which stands in brackets in front of its kind. It is filled to two
    /// characters: a number with zeros, a text with blanks.
    pub fn with_code<C: Display>(mut self, code: C) -> Self {
        self.content.code = Some(format!("{code:02}"));
        self
    }

    /// Gives the report this message, in place of the one that it may have had.
    pub fn set_message<M: ToString>(&mut self, msg: M) {
        self.content.message = Some(msg.to_string());
    }

    /// The report with this message, in place of the one that it may have had.
    pub fn with_message<M: ToString>(mut self, msg: M) -> Self {
        self.set_message(msg);
        self
    }

    /// Gives the report this note, in place of all that it had.
    pub fn set_note<N: ToString>(&mut self, note: N) {
        self.content.notes = vec![note.to_string()];
    }

    /// Adds a note.
    pub fn add_note<N: ToString>(&mut self, note: N) {
        self.content.notes.push(note.to_string());
    }

    /// Adds these notes.
    pub fn with_notes<N: IntoIterator<Item = impl ToString>>(&mut self, notes: N) {
        self.content.notes.extend(notes.into_iter().map(|note| note.to_string()));
    }

    /// The report with one note more.
    pub fn with_note<N: ToString>(mut self, note: N) -> Self {
        self.add_note(note);
        self
    }

    /// Gives the report this help, in place of all that it had.
    pub fn set_help<N: ToString>(&mut self, note: N) {
        self.content.helps = vec![note.to_string()];
    }

    /// Adds a help.
    pub fn add_help<N: ToString>(&mut self, note: N) {
        self.content.helps.push(note.to_string());
    }

    /// Adds these helps.
    pub fn with_helps<N: IntoIterator<Item = impl ToString>>(&mut self, helps: N) {
        self.content.helps.extend(helps.into_iter().map(|help| help.to_string()));
    }

    /// The report with one help more.
    pub fn with_help<N: ToString>(mut self, note: N) -> Self {
        self.add_help(note);
        self
    }

    /// Adds a label.
    pub fn add_label(&mut self, label: Label<S>) {
        self.labels.push(label);
    }

    /// Adds these labels.
    pub fn add_labels<L: IntoIterator<Item = Label<S>>>(&mut self, labels: L) {
        self.labels.extend(labels);
    }

    /// The report with one label more.
    pub fn with_label(mut self, label: Label<S>) -> Self {
        self.add_label(label);
        self
    }

    /// The report with these labels more.
    pub fn with_labels<L: IntoIterator<Item = Label<S>>>(mut self, labels: L) -> Self {
        self.add_labels(labels);
        self
    }

    /// The report with this configuration.
    pub fn with_config(mut self, config: Config) -> Self {
        self.content.config = config;
        self
    }

    /// The report, ready to be written.
    pub fn finish(self) -> Report<'a, S> {
        Report::new(self.content, self.span, self.labels)
    }
}

impl<S: Span> Debug for ReportBuilder<'_, S> {
    fn fmt(&self, f: &mut Formatter<'_>) -> fmt::Result {
        self.content.write_debug("ReportBuilder", f)
    }
}

#[cfg(test)]
mod tests {
    use super::{Report, ReportKind};
    use crate::{Color, Config, Label};

    #[test]
    fn a_report_may_be_shared() {
        fn shared<T: Send + Sync>(_: T) {}
        shared(Report::build(ReportKind::Error, 0..1).finish());
    }

    #[test]
    fn debug_texts_are_those_of_ariadne() {
        let config = "Config { cross_gap: true, label_attach: Middle, compact: false, underlines: true, \
            multiline_arrows: true, color: false, tab_width: 4, char_set: Unicode, index_type: Char }";
        let builder = Report::build(ReportKind::Custom("Hint", Color::Red), 0..1)
            .with_config(Config::new().with_color(false))
            .with_code(3)
            .with_message("m")
            .with_note("n")
            .with_label(Label::new(0..1));
        let fields = "kind: Custom(\"Hint\", Red), code: Some(\"03\"), msg: Some(\"m\"), notes: [\"n\"], help: []";
        assert_eq!(format!("{builder:?}"), format!("ReportBuilder {{ {fields}, config: {config} }}"));
        assert_eq!(format!("{:?}", builder.finish()), format!("Report {{ {fields}, config: {config} }}"));
    }
}
