//! What the library is lent of a report, whatever its sources are. It is made once a report, and not once a call.

use crate::call::{GivenLabel, GivenReport, Lent, OptionalText, Text};
use crate::color::Color;
use crate::config::LabelAttach;
use crate::label::Label;
use crate::members::{members_of, Members};
use crate::report::{Content, ReportKind};
use crate::span::Span;

/// What is lent of a report beside its sources.
pub(crate) struct Prepared<'a> {
    /// The report without labels, helps, notes and a place.
    report: GivenReport<'a>,
    helps: Vec<Text<'a>>,
    notes: Vec<Text<'a>>,
    /// All labels, with the offsets of their spans, and with the numbers that their sources have if each can be had.
    pub(crate) labels: Vec<GivenLabel<'a>>,
    /// The labels in each source, by that number.
    pub(crate) members: Vec<Members>,
    /// How many bytes the texts have.
    pub(crate) said: usize,
}

impl<'a> Prepared<'a> {
    pub(crate) fn new<S: Span>(content: &'a Content<'_>, place: &S, labels: &'a [Label<S>]) -> Prepared<'a> {
        let Content { helps, notes, .. } = content;
        let mut given: Vec<GivenLabel<'a>> = labels.iter().map(label_without_source).collect();
        let members = members_of(labels, place, &mut given);
        Prepared {
            report: report_without_lists(content),
            helps: helps.iter().map(Text::from).collect(),
            notes: notes.iter().map(Text::from).collect(),
            labels: given,
            members,
            said: texts_of(content, labels).map(str::len).sum(),
        }
    }

    /// The report with these labels, and with this source and this offset as the place in its header.
    pub(crate) fn report<'r>(&'r self, labels: &'r [GivenLabel<'r>], source: usize, start: usize) -> GivenReport<'r> {
        GivenReport {
            source,
            start,
            labels: Lent::from(labels),
            helps: Lent::from(&*self.helps),
            notes: Lent::from(&*self.notes),
            ..self.report
        }
    }
}

/// The texts of a report: all that it says but for names and lines of sources.
pub(crate) fn texts_of<'t, S>(content: &'t Content<'_>, labels: &'t [Label<S>]) -> impl Iterator<Item = &'t str> {
    let Content { kind, code, message, helps, notes, .. } = content;
    let messages = labels.iter().filter_map(|label| label.display_info.msg.as_ref());
    let texts = code.iter().chain(message).chain(helps).chain(notes).chain(messages);
    texts.map(String::as_str).chain([kind_of(*kind).1])
}

/// A report without labels, helps, notes and a place.
fn report_without_lists<'a>(content: &'a Content<'_>) -> GivenReport<'a> {
    let (kind, kind_name, kind_color) = kind_of(content.kind);
    GivenReport {
        kind,
        kind_color,
        kind_name: Text::from(kind_name),
        code: OptionalText::from(content.code.as_ref().map(Text::from)),
        message: Text::from(content.message.as_deref().unwrap_or("")),
        source: 0,
        start: 0,
        labels: Lent::from(&[][..]),
        helps: Lent::from(&[][..]),
        notes: Lent::from(&[][..]),
        flags: content.config.flags(),
        attach: attach_of(content.config.label_attach),
        tab_width: content.config.tab_width,
        context_lines: content.config.context_lines,
        width: content.config.width,
    }
}

/// A label in the first source.
pub(crate) fn label_without_source<S: Span>(label: &Label<S>) -> GivenLabel<'_> {
    let said = &label.display_info;
    GivenLabel {
        source: 0,
        start: label.span.start(),
        end: label.span.end().max(label.span.start()),
        message: OptionalText::from(said.msg.as_ref().map(Text::from)),
        color: said.color.map_or(0, color_number),
        order: said.order,
        priority: said.priority,
    }
}

/// A kind by its number, its name and the number of its colour.
fn kind_of(kind: ReportKind<'_>) -> (u32, &str, u32) {
    match kind {
        ReportKind::Error => (0, "", 0),
        ReportKind::Warning => (1, "", 0),
        ReportKind::Advice => (2, "", 0),
        ReportKind::Custom(name, color) => (3, name, color_number(color)),
    }
}

/// A colour by its number.
fn color_number(color: Color) -> u32 {
    match color {
        Color::Fixed(number) => 256 + u32::from(number),
        Color::Rgb(red, green, blue) => u32::from_be_bytes([1, red, green, blue]),
        _ => color.place().map_or(0, |place| 1 + u32::from(place)),
    }
}

/// Where strokes are attached, by its number.
fn attach_of(attach: LabelAttach) -> u32 {
    match attach {
        LabelAttach::Middle => 0,
        LabelAttach::Start => 1,
        LabelAttach::End => 2,
    }
}
