//! The numbers of lines that are far apart.
//!
//! The library numbers the lines of a source one after another. So where many lines are left out between those that it
//! is lent, these have stand-ins: numbers with as many digits as the greatest one that is shown.
//!
//! Where one source is lent, they begin with digits that no text has, a mark, and are found by it. Digits that stand
//! side by side in a picture are those of one number, or stand so in one text. Other numbers have fewer digits or are
//! less, but for those of columns, which stand behind those of lines in headers.
//!
//! Where the texts have each mark that is tried, or several sources are lent, the picture is drawn twice, by stand-ins
//! that differ in each digit. Of an offset of lines a picture has the numbers alone, so these stand where the two
//! pictures differ, whatever the texts hold.

/// How many marks are looked for in the texts.
const TRIES: usize = 8;

/// The most digits that a number has.
const MOST_DIGITS: usize = usize::MAX.ilog10() as usize + 1;

/// A number in decimal, behind blanks.
struct Decimal {
    text: [u8; MOST_DIGITS],
    len: usize,
}

impl Decimal {
    fn of(number: usize) -> Decimal {
        let (mut text, mut len, mut left) = ([b' '; MOST_DIGITS], 0, number);
        while left > 0 || len == 0 {
            len += 1;
            text[MOST_DIGITS - len] = b'0' + (left % 10) as u8;
            left /= 10;
        }
        Decimal { text, len }
    }

    fn digits(&self) -> &[u8] {
        self.filled(0)
    }

    /// The digits behind blanks, together so many or more.
    fn filled(&self, width: usize) -> &[u8] {
        &self.text[MOST_DIGITS - width.max(self.len)..]
    }
}

/// Lines that are lent together, one after another.
struct Run {
    /// What the first of them is numbered by.
    stand_in: usize,
    /// Its number.
    number: usize,
}

/// Digits that no text has, and the stand-ins that begin with them.
pub(crate) struct Mark {
    digits: Decimal,
    /// How many digits of a stand-in stand behind these.
    more: usize,
    /// The first stand-in.
    pub(crate) first: usize,
}

impl Mark {
    /// Where the next stand-in is in a picture, and how many stand-ins there are in front of it.
    fn next_in(&self, picture: &[u8], mut from: usize) -> Option<(usize, usize)> {
        loop {
            let at = from + place_of(self.digits.digits(), &picture[from..])?;
            from = at + self.digits.len;
            if let Some(line) = picture.get(from..from + self.more).and_then(value_of) {
                return Some((at, line));
            }
        }
    }
}

/// The stand-ins of a report, over all its sources.
#[derive(Default)]
pub(crate) struct Numbers {
    runs: Vec<Run>,
    /// How many stand-ins are taken.
    taken: usize,
}

impl Numbers {
    /// Takes stand-ins for so many lines of a source, one after another, with so many digits. Returns those of the
    /// first line in both pictures, or none where there are not so many.
    pub(crate) fn take(&mut self, lines: usize, digits: u32) -> Option<[usize; 2]> {
        let least = 10_usize.checked_pow(digits - 1)?;
        // (A digit becomes greater by 2 or 3. So one of 6 at the front stays one digit.)
        let most = least.checked_mul(7)?;
        let twos = 2 * (least.checked_mul(10)? / 9);
        let first = least + self.taken;
        if first + lines > most {
            return None;
        }
        self.taken += lines;
        Some([first, first + twos])
    }

    /// Tells the number of the line that has this stand-in, which is the first of a run.
    pub(crate) fn tell(&mut self, stand_in: usize, number: usize) {
        self.runs.push(Run { stand_in, number });
    }

    /// A mark of as many stand-ins as are taken, with as many digits as the first of these, `taken`. None where each
    /// mark that is tried is in a text.
    pub(crate) fn mark(&self, taken: usize, is_said: impl Fn(&[u8]) -> bool) -> Option<Mark> {
        // (A colour's numbers have three digits at most, and then begin with 1 or 2. So a stand-in has three or more.)
        if taken < 100 {
            return None;
        }
        let more = self.taken.ilog10() + 1;
        let stand_ins = 10_usize.pow(more); // with one mark
        let least = taken / stand_ins;
        let mut marks = (3 * least..7 * least).rev().take(TRIES).map(|mark| (Decimal::of(mark), mark * stand_ins));
        let (digits, first) = marks.find(|(digits, _)| !is_said(digits.digits()))?;
        Some(Mark { digits, more: more as usize, first })
    }

    /// The picture with the lines' own numbers, from the one whose stand-ins have a mark, in place of those from `taken`
    /// on.
    pub(crate) fn put_for(&self, mark: &Mark, taken: usize, picture: &[u8]) -> Vec<u8> {
        let width = mark.digits.len + mark.more;
        let mut out = Vec::with_capacity(picture.len());
        let (mut done, mut from) = (0, 0);
        while let Some((at, line)) = mark.next_in(picture, from) {
            out.extend_from_slice(&picture[done..at]);
            self.push(&mut out, taken + line, width);
            done = at + width;
            from = done + column_len(&picture[done..]);
        }
        out.extend_from_slice(&picture[done..]);
        out
    }

    /// The picture with the lines' own numbers, from the two with stand-ins.
    pub(crate) fn put_into(&mut self, picture: &[u8], other: &[u8]) -> Vec<u8> {
        self.runs.sort_unstable_by_key(|run| run.stand_in);
        let mut out = Vec::with_capacity(picture.len());
        let (mut rest, mut beside) = (picture, other);
        while let Some(before) = rest.iter().zip(beside).position(|(one, two)| one != two) {
            out.extend_from_slice(&rest[..before]);
            (rest, beside) = (&rest[before..], &beside[before..]);
            let digits = rest.iter().zip(beside).take_while(|(one, two)| one != two).count();
            self.push(&mut out, value_of(&rest[..digits]).expect("digits"), digits);
            (rest, beside) = (&rest[digits..], &beside[digits..]);
        }
        out.extend_from_slice(rest);
        out
    }

    /// Appends the number of the line with a stand-in: in the place of a header, which stands behind a colon, and else
    /// in a margin, where blanks fill it.
    fn push(&self, out: &mut Vec<u8>, stand_in: usize, digits: usize) {
        let number = Decimal::of(self.number_of(stand_in));
        let is_in_header = out.last() == Some(&b':');
        out.extend_from_slice(if is_in_header { number.digits() } else { number.filled(digits) });
    }

    /// The number of the line with a stand-in.
    fn number_of(&self, stand_in: usize) -> usize {
        let run = &self.runs[self.runs.partition_point(|run| run.stand_in <= stand_in) - 1];
        run.number + (stand_in - run.stand_in)
    }
}

/// Where some digits are first in a text.
pub(crate) fn place_of(digits: &[u8], text: &[u8]) -> Option<usize> {
    let places = &text[..(text.len() + 1).checked_sub(digits.len())?];
    let mut at = 0;
    loop {
        at += place_of_byte(digits[0], &places[at..])?;
        if text[at..].starts_with(digits) {
            return Some(at);
        }
        at += 1;
    }
}

/// Where a byte is first in a text.
fn place_of_byte(byte: u8, text: &[u8]) -> Option<usize> {
    let mut before = len_without::<32>(byte, text);
    before += len_without::<8>(byte, &text[before..]);
    text[before..].iter().position(|it| *it == byte).map(|at| before + at)
}

/// How long the blocks of so many bytes are together that don't have a byte. (Compilers look at many bytes at once.)
fn len_without<const N: usize>(byte: u8, text: &[u8]) -> usize {
    let has_none = |block: &&[u8]| !block.iter().fold(false, |found, it| found | (*it == byte));
    N * text.chunks_exact(N).take_while(has_none).count()
}

/// How many bytes a header's column has, with the colon in front. It stands behind the number of a line.
fn column_len(behind: &[u8]) -> usize {
    match behind {
        [b':', column @ ..] => 1 + column.iter().take_while(|it| it.is_ascii_digit()).count(),
        _ => 0,
    }
}

/// The number that some digits write. None if a byte is not a digit.
fn value_of(digits: &[u8]) -> Option<usize> {
    digits.iter().try_fold(0, |all, it| it.is_ascii_digit().then(|| 10 * all + usize::from(it - b'0')))
}

#[cfg(test)]
mod tests {
    use super::{place_of, Decimal, Numbers};

    #[test]
    fn stand_ins_differ_in_each_digit() {
        for digits in 1..=4 {
            let mut numbers = Numbers::default();
            let lines = 3 * 10_usize.pow(digits - 1);
            let pairs: Vec<[usize; 2]> = (0..2).map(|_| numbers.take(lines, digits).unwrap()).collect();
            assert_eq!(pairs[1][0], pairs[0][0] + lines);
            for [first, second] in pairs {
                for line in 0..lines {
                    let [one, two] = [first + line, second + line].map(|it| it.to_string());
                    assert_eq!([one.len(), two.len()], [digits as usize; 2]);
                    assert!(one.chars().zip(two.chars()).all(|(one, two)| one != two), "{one} {two}");
                }
            }
            assert_eq!(numbers.take(1, digits), None);
        }
        assert_eq!(Numbers::default().take(1, 20), None);
    }

    #[test]
    fn numbers_stand_where_pictures_differ() {
        let mut numbers = Numbers::default();
        let [first, second] = numbers.take(5, 3).unwrap();
        assert_eq!([first, second], [100, 322]);
        numbers.tell(103, 870);
        numbers.tell(100, 8);
        let picture = "E 100\n   ,-[ 322:1:104:1 ]\n 100 | 100\n 101 | \u{1b}[m102\u{1b}\n 104 |\n";
        let other = "E 100\n   ,-[ 322:1:326:1 ]\n 322 | 100\n 323 | \u{1b}[m324\u{1b}\n 326 |\n";
        let want = "E 100\n   ,-[ 322:1:871:1 ]\n   8 | 100\n   9 | \u{1b}[m 10\u{1b}\n 871 |\n";
        assert_eq!(String::from_utf8(numbers.put_into(picture.as_bytes(), other.as_bytes())).unwrap(), want);
    }

    #[test]
    fn a_mark_is_in_no_text() {
        let mark_of = |taken, lines, said: &str| {
            let mut numbers = Numbers::default();
            numbers.take(lines, 1 + usize::ilog10(taken))?;
            numbers.mark(taken, |digits| place_of(digits, said.as_bytes()).is_some()).map(|mark| mark.first)
        };
        for (taken, lines, said, first) in [
            (100, 2, "", Some(690)),
            (100, 9, "a 69", Some(680)),
            (100, 9, "169 268 67\u{e9}66", Some(650)),
            (100, 9, "69 68 67 66 65 64 63 62 ", None),
            (1000, 9, "69 68 67 66 65 64 63 62 ", Some(6990)),
            (100, 10, "6 5 4", Some(300)),
            (100, 99, "5", Some(600)),
            (100, 99, "3456", None),
            (100, 100, "", None),
            (10, 2, "", None),
        ] {
            assert_eq!(mark_of(taken, lines, said), first, "{taken} {lines} {said}");
        }
    }

    #[test]
    fn numbers_stand_where_a_mark_is() {
        let mut numbers = Numbers::default();
        let [first, _] = numbers.take(5, 3).unwrap();
        numbers.tell(first, 8);
        numbers.tell(first + 3, 870);
        let mark = numbers.mark(first, |_| false).unwrap();
        let picture = "E 100\n   ,-[ 690:1:694:6950 ]\n 690 | 100\n \u{1b}[38;5;69m691 |\u{1b}[38;5;169m 69 693\n 6";
        let want = "E 100\n   ,-[ 690:1:871:6950 ]\n   8 | 100\n \u{1b}[38;5;69m  9 |\u{1b}[38;5;169m 69 870\n 6";
        let picture = picture.replacen("690", "68", 1);
        let want = want.replacen("690", "68", 1);
        assert_eq!(String::from_utf8(numbers.put_for(&mark, first, picture.as_bytes())).unwrap(), want);
    }

    #[test]
    fn digits_are_found_where_they_are_first() {
        for before in 0..80 {
            let text = "6".repeat(before % 3) + &"-".repeat(before) + "69" + &"-69".repeat(before % 5);
            assert_eq!(place_of(b"69", text.as_bytes()), text.find("69"), "{text}");
            assert_eq!(place_of(b"691", text.as_bytes()), None, "{text}");
        }
        assert_eq!(place_of(b"69", b"6"), None);
    }

    #[test]
    fn numbers_are_written_as_digits() {
        for number in [0, 7, 10, 699, 12_345_678, usize::MAX] {
            let decimal = Decimal::of(number);
            assert_eq!(decimal.digits(), number.to_string().as_bytes());
            assert_eq!(decimal.filled(decimal.len), decimal.digits());
        }
        assert_eq!(Decimal::of(42).filled(4), b"  42");
    }
}
