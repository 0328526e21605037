//! Draws a report with a label in a source that is not there. That label is skipped, and a line on standard error
//! names the source.

use ariadne::{sources, Label, Report, ReportKind};
use std::io;

fn main() -> io::Result<()> {
    Report::build(ReportKind::Error, ("a.txt", 0..1))
        .with_label(Label::new(("a.txt", 0..1)).with_message("here"))
        .with_label(Label::new(("b.txt", 0..1)).with_message("there"))
        .finish()
        .print(sources([("a.txt", "x")]))
}
