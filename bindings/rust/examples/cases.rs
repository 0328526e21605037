//! Draws stored cases, and compares their pictures. Each line of standard input is a case, in words that
//! blanks part; a text is its bytes in hexadecimal behind an `x`, and `-` is none:
//!
//!     NAME KIND KIND_COLOR CODE MESSAGE ID START FLAGS ATTACH TAB_WIDTH CONTEXT_LINES WIDTH PICTURE
//!         source ID SHOWN TEXT LINE_OFFSET .. label ID START END MESSAGE COLOR ORDER PRIORITY ..
//!         help TEXT .. note TEXT .. edit START END TEXT ..
//!
//! A help behind the others shows the edits of a case, which has one source then.
//!
//! With a number as its word, so many lines more stand behind each source, of a hundred bytes each. The last
//! line is 'N cases, M differ', and the status 1 where M > 0.

use ariadne::{Cache, Color, Config, Edit, Label, LabelAttach, Report, ReportBuilder, ReportKind, Source};
use std::collections::HashMap;
use std::env;
use std::fmt;
use std::io::{self, BufRead};
use std::ops::Range;
use std::process::ExitCode;
use std::str::SplitWhitespace;

type Place = (String, Range<usize>);

/// The sources of a case, each with whether its name is shown.
#[derive(Default)]
struct Shown(HashMap<String, (bool, Source)>);

impl Cache<String> for Shown {
    type Storage = String;

    fn fetch(&mut self, id: &String) -> Result<&Source, impl fmt::Debug> {
        self.0.get(id).map(|(_, source)| source).ok_or("a missing source")
    }

    fn display<'a>(&self, id: &'a String) -> Option<impl fmt::Display + 'a> {
        self.0.get(id).is_none_or(|(is_shown, _)| *is_shown).then_some(id)
    }
}

/// The words of a case.
struct Words<'a>(SplitWhitespace<'a>);

impl Words<'_> {
    fn next(&mut self) -> &str {
        self.0.next().expect("a word")
    }

    fn number<T: std::str::FromStr<Err: fmt::Debug>>(&mut self) -> T {
        self.next().parse().expect("a number")
    }

    /// A text, if there is one.
    fn text(&mut self) -> Option<String> {
        let digits = self.next().strip_prefix('x')?;
        let byte = |at| u8::from_str_radix(&digits[at..at + 2], 16).expect("a byte");
        Some(String::from_utf8((0..digits.len()).step_by(2).map(byte).collect()).expect("a text"))
    }

    /// A colour, if there is one: its number in the library's header.
    fn color(&mut self) -> Option<Color> {
        const NAMED: [Color; 17] = [
            Color::Primary,
            Color::Black,
            Color::Red,
            Color::Green,
            Color::Yellow,
            Color::Blue,
            Color::Magenta,
            Color::Cyan,
            Color::White,
            Color::BrightBlack,
            Color::BrightRed,
            Color::BrightGreen,
            Color::BrightYellow,
            Color::BrightBlue,
            Color::BrightMagenta,
            Color::BrightCyan,
            Color::BrightWhite,
        ];
        match self.number::<u32>() {
            0 => None,
            number @ 1..=17 => Some(NAMED[number as usize - 1]),
            number @ 256..=511 => Some(Color::Fixed((number - 256) as u8)),
            number => {
                let [_, red, green, blue] = number.to_be_bytes();
                Some(Color::Rgb(red, green, blue))
            }
        }
    }

    fn config(&mut self) -> Config {
        let flags: u32 = self.number();
        let attach = [LabelAttach::Middle, LabelAttach::Start, LabelAttach::End][self.number::<usize>()];
        Config::of_flags(flags)
            .with_label_attach(attach)
            .with_tab_width(self.number())
            .with_context_lines(self.number())
            .with_width(self.number())
    }

    fn label(&mut self) -> Label<Place> {
        let id = self.text().expect("an id");
        let mut label = Label::new((id, self.number()..self.number()));
        if let Some(message) = self.text() {
            label = label.with_message(message);
        }
        if let Some(color) = self.color() {
            label = label.with_color(color);
        }
        label.with_order(self.number()).with_priority(self.number())
    }

    fn source(&mut self, behind: &str) -> (String, (bool, Source)) {
        let id = self.text().expect("an id");
        let is_shown = self.number::<u8>() != 0;
        let text = self.text().expect("a text") + behind;
        (id, (is_shown, Source::from(text).with_display_line_offset(self.number())))
    }

    fn edit(&mut self) -> Edit {
        Edit::new(self.number()..self.number(), self.text().expect("a text"))
    }

    /// What stands behind the report's own words.
    fn rest(&mut self, builder: &mut ReportBuilder<'_, Place>, config: &Config, behind: &str) -> Shown {
        let (mut shown, mut edits) = (Shown::default(), Vec::new());
        while let Some(word) = self.0.next() {
            match word {
                "source" => shown.0.extend([self.source(behind)]),
                "label" => builder.add_label(self.label()),
                "help" => builder.add_help(self.text().expect("a help")),
                "note" => builder.add_note(self.text().expect("a note")),
                "edit" => edits.push(self.edit()),
                _ => panic!("the word {word}"),
            }
        }
        if let Some((_, source)) = shown.0.values().next().filter(|_| !edits.is_empty()) {
            builder.add_help(Report::suggest(source, &edits, config).expect("a suggestion"));
        }
        shown
    }
}

/// The name of a case, where its picture differs with this text behind each source.
fn differing(line: &str, behind: &str) -> Option<String> {
    let mut words = Words(line.split_whitespace());
    let name = words.text().expect("a name");
    let kind = words.text().expect("a kind");
    let kind = match (kind.as_str(), words.color()) {
        (name, Some(color)) => ReportKind::Custom(name, color),
        ("Warning", None) => ReportKind::Warning,
        ("Advice", None) => ReportKind::Advice,
        (_, None) => ReportKind::Error,
    };
    let (code, message, id) = (words.text(), words.text(), words.text().expect("an id"));
    let start = words.number();
    let config = words.config();
    let mut builder = Report::build(kind, (id, start..start)).with_config(config);
    let wanted = words.text().expect("a picture");
    if let Some(code) = code {
        builder = builder.with_code(code);
    }
    if let Some(message) = message {
        builder.set_message(message);
    }
    let shown = words.rest(&mut builder, &config, behind);
    let mut picture = Vec::new();
    builder.finish().write(shown, &mut picture).expect("a picture");
    (picture != wanted.into_bytes()).then_some(name)
}

fn main() -> ExitCode {
    let line = "z".repeat(99) + "\n";
    let behind = line.repeat(env::args().nth(1).map_or(0, |lines| lines.parse().expect("a number")));
    let lines: Vec<String> = io::stdin().lock().lines().map(|line| line.expect("a line")).collect();
    let names: Vec<String> = lines.iter().filter_map(|line| differing(line, &behind)).collect();
    for name in &names {
        println!("{name}");
    }
    println!("{} cases, {} differ", lines.len(), names.len());
    ExitCode::from(u8::from(!names.is_empty() || lines.is_empty()))
}
