//! Where the lines of a text begin. Its bytes are classed block by block, which compilers do for many at once, and the
//! classes are read as words of eight.

/// The bytes of a block.
const BLOCK: usize = 1024;

/// The bytes of a word.
const WORD: usize = 8;

/// The class of a byte inside a character, behind its first. Of others the bit is not set.
const INSIDE: u8 = 1;

/// The class of a byte by which the end of a line may begin.
const END: u8 = 0x80;

/// A word whose bytes are all `INSIDE`.
const INSIDES: u64 = u64::from_ne_bytes([INSIDE; WORD]);

/// A word whose bytes are all `END`.
const ENDS: u64 = u64::from_ne_bytes([END; WORD]);

/// A place in a text, by the characters and the bytes in front of it.
#[derive(Clone, Copy, Debug, Default, Hash, PartialEq, Eq)]
pub(crate) struct Start {
    pub(crate) chars: usize,
    pub(crate) bytes: usize,
}

/// Where each line of a text begins, and where the last one ends. An empty text has one line.
pub(crate) fn starts_of(text: &str) -> Vec<Start> {
    let mut reader = Reader { bytes: text.as_bytes(), inside: 0, starts: vec![Start::default()] };
    let mut classes = [0; BLOCK];
    for (number, block) in text.as_bytes().chunks(BLOCK).enumerate() {
        if block.is_ascii() {
            put_classes(&mut classes, block, class_of_ascii);
        } else {
            put_classes(&mut classes, block, class_of);
        }
        reader.read(number * BLOCK, &classes);
    }
    let end = Start { chars: text.len() - reader.inside, bytes: text.len() };
    if reader.starts.len() == 1 || reader.starts.last() != Some(&end) {
        reader.starts.push(end);
    }
    reader.starts
}

/// Puts the classes of a block's bytes. Behind its end no bit is set.
fn put_classes(classes: &mut [u8; BLOCK], block: &[u8], class_of: impl Fn(u8) -> u8) {
    for (class, byte) in classes.iter_mut().zip(block) {
        *class = class_of(*byte);
    }
    classes[block.len()..].fill(0);
}

/// A text as far as it is read.
struct Reader<'a> {
    bytes: &'a [u8],
    /// How many bytes are inside a character, behind its first.
    inside: usize,
    starts: Vec<Start>,
}

impl Reader<'_> {
    /// Reads on from a place, of whose bytes these are the classes.
    fn read(&mut self, mut at: usize, classes: &[u8; BLOCK]) {
        for pair in classes.chunks_exact(2 * WORD) {
            if pair != [0; 2 * WORD] {
                self.read_word(at, word_of(&pair[..WORD]));
                self.read_word(at + WORD, word_of(&pair[WORD..]));
            }
            at += 2 * WORD;
        }
    }

    /// The same of the classes of a word.
    fn read_word(&mut self, at: usize, word: u64) {
        if word & ENDS != 0 {
            self.read_ends(at, word);
        }
        self.inside += count_insides(word);
    }

    /// Takes the ends of lines that begin in a word.
    #[inline(never)] // (so that `read` has the registers)
    fn read_ends(&mut self, at: usize, word: u64) {
        let mut ends = word & ENDS;
        while ends != 0 {
            let before = ends.trailing_zeros() as usize / 8;
            if let Some(len) = end_len(&self.bytes[at + before..]) {
                let inside = self.inside + count_insides(word & ((1 << (8 * before)) - 1));
                self.starts.push(Start { chars: at + before - inside + 1, bytes: at + before + len });
            }
            ends &= ends - 1;
        }
    }
}

/// The class of a byte. The end of a line may begin by LF, VT, FF, CR, and what U+0085, U+2028 and U+2029 begin by.
fn class_of(byte: u8) -> u8 {
    let is_inside = byte & 0xc0 == 0x80;
    let may_begin_end = byte.wrapping_sub(b'\n') < 4 || byte & 0xdf == 0xc2;
    (if is_inside { INSIDE } else { 0 }) | (if may_begin_end { END } else { 0 })
}

/// The class of a byte of ASCII.
fn class_of_ascii(byte: u8) -> u8 {
    if byte.wrapping_sub(b'\n') < 4 {
        END
    } else {
        0
    }
}

/// Eight bytes as a word, of which the first is the lowest.
fn word_of(bytes: &[u8]) -> u64 {
    u64::from_le_bytes(bytes.try_into().expect("eight bytes"))
}

/// How many bytes of a word are of the class `INSIDE`.
fn count_insides(word: u64) -> usize {
    ((word & INSIDES).wrapping_mul(INSIDES) >> 56) as usize
}

/// How many bytes the character has that ends a line here, if one does. A CR LF ends by its line feed.
fn end_len(bytes: &[u8]) -> Option<usize> {
    match bytes {
        [b'\n' | b'\x0b' | b'\x0c', ..] => Some(1),
        [b'\r', b'\n', ..] => None,
        [b'\r', ..] => Some(1),
        [0xc2, 0x85, ..] => Some(2),
        [0xe2, 0x80, 0xa8 | 0xa9, ..] => Some(3),
        _ => None,
    }
}

#[cfg(test)]
mod tests {
    use super::{class_of, class_of_ascii, count_insides, starts_of, Start, BLOCK, END, INSIDE};

    /// What ends a line; of CR LF both are one end.
    const SEPARATORS: [char; 7] = ['\r', '\n', '\x0b', '\x0c', '\u{85}', '\u{2028}', '\u{2029}'];

    /// Where the lines of a text begin, character by character, and where the last one ends.
    fn starts_one_by_one(text: &str) -> Vec<Start> {
        let mut starts = vec![Start::default()];
        let mut at = Start::default();
        let mut characters = text.chars().peekable();
        while let Some(character) = characters.next() {
            at.chars += 1;
            at.bytes += character.len_utf8();
            let is_within = character == '\r' && characters.peek() == Some(&'\n');
            if SEPARATORS.contains(&character) && !is_within {
                starts.push(at);
            }
        }
        if starts.len() == 1 || starts.last() != Some(&at) {
            starts.push(at);
        }
        starts
    }

    #[test]
    fn lines_begin_where_they_do_one_by_one() {
        // (Beside the separators: bytes that theirs begin with, and neighbours of them.)
        let others = "a\t\x0e\u{84}\u{b0}\u{e9}\u{2026}\u{202a}\u{6f22}\u{1f600}";
        let characters: Vec<char> = SEPARATORS.into_iter().chain(others.chars()).collect();
        let mut seed: usize = 1;
        for len in 0..4000 {
            let mut text = "b".repeat(if len % 3 == 0 { BLOCK - len % 100 } else { 0 });
            for _ in 0..len % 80 {
                seed = seed.wrapping_mul(6364136223846793005).wrapping_add(1442695040888963407);
                let place = (seed >> 33) % (3 * characters.len());
                text.push(characters.get(place).copied().unwrap_or('b'));
            }
            assert_eq!(starts_of(&text), starts_one_by_one(&text), "{text:?}");
        }
    }

    #[test]
    fn each_byte_has_its_class() {
        for byte in 0..=255 {
            let is_inside = (0x80..0xc0).contains(&byte);
            let may_begin_end = matches!(byte, 10..=13 | 0xc2 | 0xe2);
            assert_eq!(class_of(byte), INSIDE * u8::from(is_inside) + END * u8::from(may_begin_end), "{byte}");
            assert!(class_of_ascii(byte) == class_of(byte) || !byte.is_ascii(), "{byte}");
        }
    }

    #[test]
    fn bytes_inside_characters_are_counted() {
        assert_eq!(count_insides(0), 0);
        assert_eq!(count_insides(0x8001_0000_0100_8001), 3);
        assert_eq!(count_insides(0x8181_8181_8181_8181), 8);
    }
}
