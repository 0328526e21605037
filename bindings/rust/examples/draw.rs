//! Draws the stored cases "the report that each language draws" (plain) and "..., in colors" (colors):
//! draw plain|colors

use ariadne::{CharSet, Color, Config, FnCache, Label, Report, ReportKind, Source};
use std::collections::HashMap;
use std::io;

const TEXT: &str = "def five = match () in {\n\t() => 5,\n\t() => \"5\",\n}\n\ndef six =\n    five\n    + 1\n";

fn main() -> io::Result<()> {
    let is_plain = std::env::args().nth(1).as_deref() == Some("plain");
    let config = if is_plain {
        Config::new().with_color(false).with_char_set(CharSet::Ascii)
    } else {
        Config::new()
    };
    let label = |id, start, end, message: &str| Label::new((id, start..end)).with_message(message);
    let held = HashMap::from([
        ("sample.tao", Source::from(TEXT)),
        ("lib.tao", Source::from("def seven : Nat = five\n").with_display_line_offset(40)),
    ]);
    let cache = FnCache::new(|id: &&str| -> Result<&str, String> { Err(format!("no {id}")) }).with_sources(held);
    Report::build(ReportKind::Error, ("sample.tao", 32..33))
        .with_code(3)
        .with_config(config)
        .with_message("Incompatible types")
        .with_label(label("sample.tao", 32, 33, "This is of type Nat").with_color(Color::Fixed(201)))
        .with_label(label("sample.tao", 42, 45, "This is of type Str").with_color(Color::Fixed(155)))
        .with_label(
            label("sample.tao", 11, 48, "The values are outputs of this match expression")
                .with_color(Color::Fixed(81)),
        )
        .with_label(label("lib.tao", 12, 15, "Nat is asked for here"))
        .with_note("Outputs of match expressions must coerce to the same type")
        .finish()
        .print(cache)
}
