//! Labels.

use crate::color::Color;
use crate::span::Span;
use std::ops::Range;

/// A piece of a source, and what is said of it.
#[derive(Clone, Debug, Hash, PartialEq, Eq)]
pub struct Label<S = Range<usize>> {
    pub(crate) span: S,
    pub(crate) display_info: LabelDisplay,
}

/// What is said of a piece. (The name and the fields are those in the debug texts of `ariadne` 0.6.0.)
#[derive(Clone, Debug, Default, Hash, PartialEq, Eq)]
pub(crate) struct LabelDisplay {
    pub(crate) msg: Option<String>,
    pub(crate) color: Option<Color>,
    pub(crate) order: i32,
    pub(crate) priority: i32,
}

impl<S: Span> Label<S> {
    /// A label without message or colour, of order 0 and priority 0.
    ///
    /// # Panics
    ///
    /// Panics where the span ends before it starts.
    pub fn new(span: S) -> Label<S> {
        assert!(span.start() <= span.end(), "Label start is after its end");
        Label { span, display_info: LabelDisplay::default() }
    }

    /// The label with this message. A label without one is only marked.
    pub fn with_message<M: ToString>(mut self, msg: M) -> Label<S> {
        self.display_info.msg = Some(msg.to_string());
        self
    }

    /// The label in this colour.
    pub fn with_color(mut self, color: Color) -> Label<S> {
        self.display_info.color = Some(color);
        self
    }

    /// The label with this order. Those of lower order are drawn first, over all sources.
    pub fn with_order(mut self, order: i32) -> Label<S> {
        self.display_info.order = order;
        self
    }

    /// The label with this priority. Where labels overlap, the higher one is seen; of the same priority, the
    /// shorter one is.
    pub fn with_priority(mut self, priority: i32) -> Label<S> {
        self.display_info.priority = priority;
        self
    }
}

#[cfg(test)]
mod tests {
    use super::Label;
    use crate::Color;

    #[test]
    fn debug_texts_are_those_of_ariadne() {
        assert_eq!(
            format!("{:?}", Label::new(1..3).with_message("m").with_color(Color::Fixed(4)).with_order(-5)),
            "Label { span: 1..3, display_info: LabelDisplay { msg: Some(\"m\"), color: Some(Fixed(4)), order: -5, \
             priority: 0 } }"
        );
    }

    #[test]
    #[should_panic(expected = "Label start is after its end")]
    #[allow(clippy::reversed_empty_ranges)]
    fn a_label_may_not_end_before_it_starts() {
        Label::new(3..1);
    }
}
