//! What is held of sources until the library is called: names and texts, one behind another.

use std::cell::{Cell, Ref, RefCell};
use std::fmt::{self, Display, Formatter, Write};

/// Bytes that the name and the lines of most sources fit.
const FEW: usize = 64;

/// Names and texts, one behind another. A formatter may write them meanwhile.
pub(crate) struct Held(RefCell<String>);

impl Held {
    /// Nothing, with room for what most sources need: of so many, all in front of the last are copied.
    pub(crate) fn for_sources(count: usize) -> Held {
        Held(RefCell::new(String::with_capacity(FEW * count.saturating_sub(1))))
    }

    /// Does this with a formatter that writes here. (To begin one for each name takes as long as to write it.)
    pub(crate) fn with_formatter<T>(&self, work: impl FnOnce(&mut Formatter<'_>) -> T) -> T {
        let (work, done) = (Cell::new(Some(work)), Cell::new(None));
        let working = Working(|f: &mut Formatter<'_>| done.set(work.take().map(|work| work(f))));
        write!(Writer(self), "{working}").expect("the work gives no error");
        done.into_inner().expect("a formatter does the work once")
    }

    #[inline]
    pub(crate) fn len(&self) -> usize {
        self.0.borrow().len()
    }

    /// Appends a name, by a formatter that writes here if there is one.
    #[inline]
    pub(crate) fn push_name(&self, name: impl Display, formatter: &mut Option<&mut Formatter<'_>>) {
        let written = match formatter {
            Some(formatter) => name.fmt(formatter),
            None => write!(Writer(self), "{name}"),
        };
        written.expect("a Display implementation returned an error unexpectedly");
    }

    /// All that is held.
    pub(crate) fn text(&self) -> Ref<'_, String> {
        self.0.borrow()
    }

    #[inline]
    pub(crate) fn push(&self, text: &str) {
        self.0.borrow_mut().push_str(text);
    }

    /// Takes back what is held from there on.
    pub(crate) fn split_off(&self, at: usize) -> String {
        self.0.borrow_mut().split_off(at)
    }
}

/// Appends to what is held.
struct Writer<'h>(&'h Held);

impl Write for Writer<'_> {
    fn write_str(&mut self, text: &str) -> fmt::Result {
        self.0.push(text);
        Ok(())
    }
}

/// Work that is done where a formatter displays it.
struct Working<F>(F);

impl<F: Fn(&mut Formatter<'_>)> Display for Working<F> {
    fn fmt(&self, f: &mut Formatter<'_>) -> fmt::Result {
        (self.0)(f);
        Ok(())
    }
}

#[cfg(test)]
mod tests {
    use super::Held;
    use std::fmt::Formatter;

    /// Holds two names with a text between them. Returns how many bytes are in front of the second name.
    fn hold(held: &Held, mut formatter: Option<&mut Formatter<'_>>) -> usize {
        held.push_name(12, &mut formatter);
        held.push("a\n");
        let len = held.len();
        held.push_name(format_args!("{}.{}", 'b', "txt"), &mut formatter);
        len
    }

    #[test]
    fn names_are_held_by_a_formatter_and_without() {
        let held = Held::for_sources(0);
        let len = hold(&held, None);
        assert_eq!((held.split_off(len).as_str(), held.text().as_str()), ("b.txt", "12a\n"));
        let again = held.with_formatter(|formatter| hold(&held, Some(formatter)));
        assert_eq!((held.split_off(again).as_str(), held.text().as_str()), ("b.txt", "12a\n12a\n"));
    }
}
