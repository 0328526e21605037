"""The call that draws a case, as lines of Rust: what one writes to get its picture."""

# How a character of a text is written that Rust's own literals escape.
ESCAPES = {'"': '\\"', "\\": "\\\\", "\n": "\\n", "\t": "\\t", "\r": "\\r", "\x1b": "\\x1b"}
# What a case of the gallery may have. A case with another member has no call here.
MEMBERS = {
    "name", "kind", "kind_color", "number", "code", "message", "at", "id", "source", "line_offset",
    "sources", "missing", "labels", "helps", "notes", "settings", "worked", "left_out", "picture", "safe",
    "edits",
}
ENUMS = {"label_attach": "LabelAttach", "char_set": "CharSet", "index_type": "IndexType"}


def literal(text):
    """A text as a literal. What can't be seen is written by its number."""
    seen = (it if it.isprintable() else f"\\u{{{ord(it):x}}}" for it in text)
    return '"' + "".join(ESCAPES.get(it, shown) for it, shown in zip(text, seen)) + '"'


def over_of(case):
    """What makes the cache of a case, or the only source of one that is drawn safely."""
    if "safe" in case:
        (source,) = case["sources"]
        made = f"SafeSource::new(alloc, {literal(source['text'])}, LineEnds::{case['safe']})?"
        return made + f".with_name({literal(source['id'])})?"
    if "source" in case:
        source = f"Source::from(alloc, {literal(case['source'])})?"
        offset = case.get("line_offset")
        return source + (f".with_display_line_offset({offset})" if offset else "")
    pairs = (f"({literal(it['id'])}, {literal(it['text'])})" for it in case["sources"])
    return f"sources(alloc, [{', '.join(pairs)}])?"


def span_of(case, it, at):
    """The span of a report or a label, with the id of its source where sources have ids."""
    if "source" in case:
        return at
    if "safe" in case:
        return f"(0, {at})"
    return f"({literal(it.get('id', case['sources'][0]['id']))}, {at})"


def kind_of(case):
    if "safe" in case:
        return f"SafeKind::{case.get('kind', 'Error').lower()}()"
    if "kind_color" in case:
        return f"ReportKind::Custom({literal(case['kind'])}, Color::{case['kind_color']})"
    return f"ReportKind::{case.get('kind', 'Error')}"


def setting_of(name, value):
    """The call of `Config` that makes a setting."""
    if name in ENUMS:
        value = f"{ENUMS[name]}::{value}"
    return f".with_{name}({str(value).lower() if isinstance(value, bool) else value})"


def label_of(case, label):
    calls = f"Label::new({span_of(case, label, label['at'])})"
    if "message" in label:
        calls += f".with_message(alloc, {literal(label['message'])})?"
    for name, value in label.items():
        if name in ("color", "order", "priority"):
            calls += f".with_{name}({'Color::' * (name == 'color')}{value})"
    return calls


def edits_of(case):
    """The edits of a case."""
    return ", ".join(f"Edit {{ span: {it['at']}, text: String::from_str(alloc, {literal(it['text'])})? }}" for it in case["edits"])


def view_of(settings):
    """How the lines of a suggestion are shown."""
    tab_width, width = settings.get("tab_width", 4), settings.get("width", 0)
    char_set = settings.get("char_set", "Ascii")
    return f"View {{ tab_width: {tab_width}, width: {width}, char_set: CharSet::{char_set} }}"


def suggestion_of(case):
    """The help that shows the edits of a case."""
    settings = case.get("settings", {})
    counts = settings.get("index_type", "Char")
    return f"suggestion(alloc, &source, IndexType::{counts}, {view_of(settings)}, &[{edits_of(case)}])?.as_str()"


def call_of(case):
    """The call that draws a case, of a name in the gallery: over which cache, and the builder."""
    if case.keys() - MEMBERS:
        raise ValueError(f"the case '{case['name']}' has no call: {case.keys() - MEMBERS}")
    config = "plain" + "".join(setting_of(*it) for it in case.get("settings", {}).items())
    place = span_of(case, case, case.get("at", "0..0"))
    calls = [f".with_code({case['number']})?"] if "number" in case else []
    calls += [f".with_code_text({literal(case['code'])})?"] if "code" in case else []
    calls += [f".with_message({literal(case['message'])})?"] if "message" in case else []
    calls += [f".with_label({label_of(case, label)})?" for label in case.get("labels", [])]
    calls += [f".with_help({literal(it)})?" for it in case.get("helps", [])]
    calls += [f".with_help({suggestion_of(case)})?"] if "edits" in case else []
    calls += [f".with_note({literal(it)})?" for it in case.get("notes", [])]
    head = f"Report::build(alloc, {kind_of(case)}, {place}).with_config({config})"
    if "safe" in case:
        head = f"SafeBuilder::new(alloc, &sources, {kind_of(case)}, {place}, {config})"
    return over_of(case), [head, *calls]


def code_of(case):
    """The same as a page shows it."""
    over, (head, *calls) = call_of(case)
    return "\n".join([f"// over {over}", head, *(f"    {call}" for call in calls)])
