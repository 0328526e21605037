//! A program as users of `ariadne` 0.6.0 write it: but for the line of `Cargo.toml` it knows nothing of this
//! crate. Its picture is that of `../python/tests/readme.py`.

use ariadne::{Color, ColorGenerator, Fmt, Label, Report, ReportKind, Source};

const TEXT: &str = "def five = match () in {\n\t() => 5,\n\t() => \"5\",\n}\n\ndef six =\n    five\n    + 1\n";

fn main() {
    let mut colors = ColorGenerator::new();
    let number = colors.next();
    let text = colors.next();
    let whole = Color::Fixed(81);

    Report::build(ReportKind::Error, ("sample.tao", 32..33))
        .with_code(3)
        .with_message("Incompatible types".to_string())
        .with_label(
            Label::new(("sample.tao", 32..33))
                .with_message(format!("This is of type {}", "Nat".fg(number)))
                .with_color(number),
        )
        .with_label(
            Label::new(("sample.tao", 42..45))
                .with_message(format!("This is of type {}", "Str".fg(text)))
                .with_color(text),
        )
        .with_label(
            Label::new(("sample.tao", 11..48))
                .with_message(format!("The values are outputs of this {} expression", "match".fg(whole)))
                .with_color(whole),
        )
        .with_note(format!("Outputs of {} expressions must coerce to the same type", "match".fg(whole)))
        .finish()
        .print(("sample.tao", Source::from(TEXT)))
        .unwrap();
}
