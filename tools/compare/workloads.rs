//! The workloads of docs/dev/SPEED.md, as plain data.

use std::iter::once;

/// The words of a line.
const WORDS: [(usize, usize); 4] = [(14, 19), (22, 26), (29, 34), (37, 42)];
/// The lines of a large text.
const LARGE: usize = 200_000;
/// Those of them that have a label.
const FAR_LINES: [usize; 3] = [99, 99_999, 199_899];

/// A piece of a source, and what is said of it.
pub struct Mark {
    pub source: usize,
    pub start: usize,
    pub end: usize,
    pub message: Option<String>,
}

/// A report in the making. Its own span is that of its first mark.
#[derive(Default)]
pub struct Job {
    /// The names and the texts. A single source without a name is drawn as one.
    pub sources: Vec<(Option<String>, String)>,
    pub title: String,
    /// In the order in which they are added.
    pub marks: Vec<Mark>,
    /// Whether it is drawn in colours, and with box drawing characters.
    pub is_colored: bool,
    /// Whether offsets count bytes, and not characters.
    pub in_bytes: bool,
}

fn line(number: usize) -> String {
    format!("let v{number:06} = alpha + beta * gamma - delta (eps);\n")
}

fn narrow(lines: usize) -> String {
    (0..lines).map(line).collect()
}

/// The same with two or three bytes for every fifth character.
fn wide(lines: usize) -> String {
    let wider = |(place, c): (usize, char)| match place % 10 {
        0 => '\u{e9}',
        5 => '\u{6f22}',
        _ => c,
    };
    (0..lines).flat_map(|number| line(number).chars().enumerate().map(wider).collect::<Vec<_>>()).collect()
}

fn words(count: usize) -> String {
    (0..count).map(|number| format!("w{number:06} +,")).collect()
}

/// The same with a tab, a wide character and one without columns in each word.
fn tabbed(count: usize) -> String {
    let replaced = |(place, c): (usize, char)| match place % 10 {
        3 => '\t',
        5 => '\u{6f22}',
        8 => '\u{301}',
        _ => c,
    };
    words(count).chars().enumerate().map(replaced).collect()
}

fn mark(start: usize, end: usize, message: Option<String>) -> Mark {
    Mark { source: 0, start, end, message }
}

fn said(start: usize, end: usize, message: String) -> Mark {
    mark(start, end, Some(message))
}

fn silent(start: usize, end: usize) -> Mark {
    mark(start, end, None)
}

/// A job over one source without a name, whose offsets count characters.
fn plain(title: &str, text: String, marks: impl IntoIterator<Item = Mark>) -> Job {
    Job {
        sources: vec![(None, text)],
        title: title.to_string(),
        marks: marks.into_iter().collect(),
        ..Job::default()
    }
}

fn two() -> Job {
    let marks = [said(0, 5, "This is an apple".to_string()), said(9, 15, "This is an orange".to_string())];
    plain("can't compare apples with oranges", "apple == orange;".to_string(), marks)
}

/// Four labels in each line, and others over several lines, of which each lies inside the next.
fn nested(times: usize) -> Job {
    let lines = 50 * times;
    let marks = (0..lines).flat_map(|line| {
        let at = 50 * line;
        let within = WORDS.iter().enumerate();
        let within = within.map(move |(word, (from, to))| said(at + from, at + to, format!("inline {line} {word}")));
        let first = lines - 1 - line;
        let over = (first < 20 * times).then(|| said(50 * first + 4, at + 48, format!("nested {first}")));
        within.chain(over)
    });
    plain("nested", narrow(lines), marks)
}

/// A label over the first seven of each ten characters of one line.
fn side_by_side(count: usize, text: String) -> Job {
    plain("wide", text, (0..count).map(|it| said(10 * it, 10 * it + 7, format!("wide {it}"))))
}

/// Three labels far apart in a large text.
fn large(in_bytes: bool) -> Job {
    let (text, len) = if in_bytes { (wide(LARGE), 65) } else { (narrow(LARGE), 50) };
    let marks = FAR_LINES.map(|it| said(len * (it + 1) - 7, len * (it + 1) - 2, format!("line {it}")));
    Job { in_bytes, ..plain("large", text, marks) }
}

fn deep(count: usize) -> Job {
    let over = |it: usize| said(50 * it + 4, 50 * (2 * count - 1 - it) + 48, format!("deep {it}"));
    plain("deep", narrow(2 * count), (0..count).rev().map(over))
}

fn crossing(count: usize) -> Job {
    let over = |it: usize| said(50 * it + 4, 50 * (count + it) + 48, format!("crossing {it}"));
    plain("crossing", narrow(2 * count), (0..count).map(over))
}

/// Labels over two lines without message, and as many with one on the lines between them.
fn said_and_silent(count: usize) -> Job {
    let both = |it: usize| {
        let at = 200 * it;
        [silent(at + 14, at + 60), said(at + 114, at + 119, format!("said {it}"))]
    };
    plain("silent", narrow(4 * count), (0..count).flat_map(both))
}

/// The report's own span far in a line that isn't ASCII, and a group for each other label.
fn byte_header(count: usize) -> Job {
    let first = "\u{e9}b".repeat(50_000) + "\n";
    let len = first.len();
    let at = |it: usize| said(len + 50 * it + 14, len + 50 * it + 19, format!("m{it}"));
    let marks = once(silent(len - 7, len - 4)).chain((0..count).rev().map(at));
    Job { in_bytes: true, ..plain("byteheader", first + &narrow(count), marks) }
}

/// Labels without message in a line that isn't ASCII, and one with a message at its start.
fn byte_silent(count: usize) -> Job {
    let rest = (1..count).map(|it| silent(10 * it + 2, 10 * it + 5));
    let marks = once(said(2, 5, "first".to_string())).chain(rest);
    Job { in_bytes: true, ..plain("bytesilent", "\u{e9}bcdefg ,".repeat(count), marks) }
}

/// Nested labels without message, over lines of which each second one has a label.
fn under(count: usize) -> Job {
    let below = |it: usize| 50 * (count + 2 * it);
    let shown = (0..count).map(|it| said(below(it) + 14, below(it) + 19, format!("u{it}")));
    let over = (0..count).rev().map(|it| silent(50 * it + 4, 50 * (4 * count - 1 - it) + 48));
    plain("under", narrow(4 * count), shown.chain(over))
}

/// Words side by side in a line that starts at an offset: a label with a message, and so many without.
fn first_of_line(offset: usize, count: usize) -> impl Iterator<Item = Mark> {
    let rest = (1..=count).map(move |it| silent(offset + 10 * it, offset + 10 * it + 7));
    once(said(offset, offset + 7, "first".to_string())).chain(rest)
}

fn silent_lines(count: usize) -> Job {
    let line = words(count + 1) + "\n";
    let marks = (0..40).flat_map(|it| first_of_line(it * line.len(), count));
    plain("silentlines", line.repeat(40), marks)
}

/// A line with many blanks behind its word, and labels in it and in the next line in turn.
fn trailing(count: usize) -> Job {
    let first = format!("word{}\n", " ".repeat(100_000));
    let at = |it: usize| if it % 2 == 0 { first.len() } else { 0 };
    let marks = (0..count).map(|it| said(at(it), at(it) + 4, format!("m{it}")));
    plain("trailing", first.clone() + "next\n", marks)
}

/// A label near the end of a line of so many characters, two in turn.
fn at_end(title: &str, two: &str, count: usize) -> Job {
    plain(title, two.repeat(count / 2), [said(count - 8, count - 2, "end".to_string())])
}

fn crossing_in_line(count: usize) -> Job {
    let over = |it: usize| said(10 * it, 10 * (count + it) + 7, format!("c{it}"));
    plain("linecross", words(2 * count), (0..count).map(over))
}

/// Labels at one place of a text, or at one of each line.
fn numbered(title: &str, count: usize, text: String, place: impl Fn(usize) -> (usize, usize), word: &str) -> Job {
    let at = |it: usize| said(place(it).0, place(it).1, format!("{word}{it}"));
    plain(title, text, (0..count).map(at))
}

/// A label in the middle of a text of 60,000 bytes.
fn file() -> Job {
    numbered("file", 1, narrow(1200), |_| (30_014, 30_019), "m")
}

/// From the last line to the first.
fn falling(count: usize) -> Job {
    let mut job = numbered("falling", count, narrow(count), |it| (50 * it + 14, 50 * it + 19), "m");
    job.marks.reverse();
    job
}

fn long_messages(count: usize) -> Job {
    let at = |it: usize| said(50 * it + 14, 50 * it + 19, format!("{it:08} ").repeat(1000));
    plain("longmsg", narrow(count), (0..count).map(at))
}

fn left_out(count: usize) -> Job {
    let mut job = numbered("leftout", count, line(0), |_| (1000, 1001), "x");
    job.marks.insert(0, said(14, 19, "m".to_string()));
    job
}

/// Labels over sources with these names, in turn.
fn named(title: &str, names: Vec<String>, count: usize, word: &str) -> Job {
    let at = |it: usize| Mark { source: it % names.len(), ..said(14, 19, format!("{word}{it}")) };
    let marks = (0..count).map(at).collect();
    let sources = names.iter().enumerate().map(|(it, name)| (Some(name.clone()), line(it))).collect();
    Job { sources, title: title.to_string(), marks, ..Job::default() }
}

/// The job of a name that ends in a number.
fn counted(kind: &str, count: usize) -> Option<Job> {
    let lines = |lines: usize| move |it: usize| (50 * lines * it + 14, 50 * lines * it + 19);
    Some(match kind {
        "wide" => side_by_side(count, words(count)),
        "tabbed" => side_by_side(count, tabbed(count)),
        "lines" => numbered(kind, count, narrow(2 * count), lines(2), "line "),
        "deep" => deep(count),
        "crossing" => crossing(count),
        "same" => numbered(kind, count, line(0), |_| (14, 19), "same "),
        "silent" => said_and_silent(count),
        "byteheader" => byte_header(count),
        "bytesilent" => byte_silent(count),
        "trailing" => trailing(count),
        "cjkline" => at_end(kind, "\u{6f22}\u{5b57}", count),
        "latinline" => at_end(kind, "\u{e9}a", count),
        "under" => under(count),
        "silentlines" => silent_lines(count),
        "silentwide" => plain(kind, words(count + 1), first_of_line(0, count)),
        "onechar" => numbered(kind, count, line(0), |_| (14, 15), "m"),
        "falling" => falling(count),
        "linecross" => crossing_in_line(count),
        "longmsg" => long_messages(count),
        "zeroline" => numbered(kind, count, "x".repeat(count) + "\n", |it| (it, it), "z"),
        "leftout" => left_out(count),
        "sources" => named(kind, (0..count).map(|it| format!("name{it}")).collect(), count, "source "),
        "longid" => named(kind, vec!["n".repeat(10_000)], count, "m"),
        "altsrc" => named(kind, vec!["aa".to_string(), "bb".to_string()], count, "m"),
        _ => return None,
    })
}

/// The job of a workload. That of `index` and `index-bytes` is read for its text alone.
pub fn job(name: &str) -> Option<Job> {
    let (kind, rest) = name.split_once('-').unwrap_or((name, ""));
    Some(match name {
        "two" => two(),
        "two-colour" => Job { is_colored: true, ..two() },
        "nested" => nested(1),
        "file" => file(),
        "nested-colour" => Job { is_colored: true, ..nested(1) },
        "wide" => side_by_side(200, words(200)),
        "large" | "index" => large(false),
        "large-bytes" | "index-bytes" => large(true),
        _ if kind == "nested" => nested(rest.strip_prefix('x')?.parse().ok()?),
        _ => counted(kind, rest.parse().ok()?)?,
    })
}
