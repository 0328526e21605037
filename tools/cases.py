"""Cases as docs/dev/CASES.md tells them: those that are stored, and reports written as cases or read from
them."""

import re
import tomllib
from pathlib import Path

import settings

DATA = Path(__file__).resolve().parent.parent / "crates/ariadne_replay/data"
# Escapes that TOML has since 1.1, which tomllib doesn't read, and the backslash's own.
NEW_ESCAPE = re.compile(r"\\(?:\\|e|x[0-9a-fA-F]{2})")
# What stands in a text as it is. (No blank ends a line, since a quote stands behind it.)
NOT_PLAIN = re.compile(r'["\\]|[^ -~]')
LARGEST = 2**63 - 1
LAST_OFFSET = 2**64 - 1
# The settings of a case that tells none.
SETTINGS = {it.name: it.in_cases for it in settings.SETTINGS}
# What the model of reports has no words for.
NOT_RECKONED = {"painted", "safe", "takes", "fails"}


def old_escape(found):
    """An escape that TOML 1.0 has, for one that 1.1 has."""
    escape = found[0]
    code = "1b" if escape == r"\e" else escape[2:]
    return escape if escape == r"\\" else r"\u00" + code


def members_of(text):
    """The members of a file, or of a case as it stands there."""
    return tomllib.loads(NEW_ESCAPE.sub(old_escape, text))


def cases_of(text):
    """The cases of a file."""
    return members_of(text).get("case", [])


def stored_cases():
    """The cases of all files."""
    return [case for file in sorted(DATA.glob("*.toml")) for case in cases_of(file.read_text())]


def escape_of(found):
    """The escape of a character, in TOML's shorter form where it has one."""
    code = ord(found[0])
    return f"\\u{code:04x}" if code < 0x10000 else f"\\U{code:08x}"


def text_of(text):
    """A text as TOML, on one line."""
    return '"' + NOT_PLAIN.sub(escape_of, text) + '"'


def value_of(value):
    """A value as TOML. A number that is past TOML's is a text."""
    if isinstance(value, bool):
        return str(value).lower()
    if isinstance(value, int):
        return str(value) if value <= LARGEST else f'"{value}"'
    if isinstance(value, list):
        return "[" + ", ".join(map(value_of, value)) + "]"
    if isinstance(value, dict):
        return "{ " + ", ".join(f"{name} = {value_of(it)}" for name, it in value.items()) + " }"
    return text_of(value)


def told(**members):
    """The members that are there."""
    return {name: value for name, value in members.items() if value not in (None, [], {})}


def text_of_case(case):
    """A case as TOML."""
    rows = (f"{member} = {value_of(value)}\n" for member, value in case.items())
    return "[[case]]\n" + "".join(rows)


def label_of(label):
    """A label of a report, as the member of a case."""
    return told(
        id=label["id"],
        at=f"{label['start']}..{label['end']}",
        message=label["message"],
        color=label.get("color"),
        order=label["order"],
        priority=label["priority"],
    )


def sources_of(report):
    """The members that tell a report's sources."""
    sources = report["sources"]
    if report["cache"] == "source":
        return told(source=sources[0]["text"], line_offset=sources[0]["offset"] or None)
    if report["cache"] == "files":
        given = [told(id=source["id"]) for source in sources]
    else:
        given = [
            told(id=source["id"], text=source["text"], line_offset=source["offset"] or None)
            for source in sources
        ]
    ids = {source["id"] for source in sources}
    hidden = report["hidden"] if report["cache"] == "custom" else []
    asked = [report["span"][0], *(label["id"] for label in report["labels"]), *hidden]
    return told(
        sources=given,
        missing=[it for it in dict.fromkeys(asked) if it not in ids],
        hidden=hidden[0] if hidden else None,
        cache="FileCache" if report["cache"] == "files" else None,
    )


def members_told(name, report):
    """The members of a report as a case of a name, without a picture."""
    source_id, start, end = report["span"]
    return told(
        name=name,
        kind=report.get("kind"),
        kind_color=report.get("kind_color"),
        code=report.get("code"),
        message=report.get("message"),
        id=source_id,
        at=f"{start}..{end}",
        **sources_of(report),
        labels=[label_of(label) for label in report["labels"]],
        helps=report.get("helps"),
        edits=report.get("edits"),
        notes=report.get("notes"),
        settings=report["config"],
        takes=report.get("takes"),
        safe=report.get("safe"),
    )


def without_defaults(members):
    """The members of a report without those that say what a case has that tells none."""
    settings = {name: value for name, value in members["settings"].items() if value != SETTINGS[name]}
    labels = [{name: it for name, it in label.items() if it != 0} for label in members.get("labels", [])]
    return told(**{**members, "labels": labels, "settings": settings})


def case_of(name, report, is_whole=True):
    """The text of a report as a case of a name, without a picture: all that is told of it, or but for what
    a case has that tells none."""
    members = members_told(name, report)
    return text_of_case(members if is_whole else without_defaults(members))


def ends_of(piece):
    """The start and the end of a piece: those of `0..=4` are 0 and 5."""
    start, _, end = piece.partition("..")
    return int(start), min(int(end[1:]) + 1, LAST_OFFSET) if end.startswith("=") else int(end)


def given_sources(case):
    """The sources of a case that its cache has. Those of a FileCache are files."""
    if "source" in case:
        return [{"id": None, "text": case["source"], "offset": int(case.get("line_offset", 0))}]
    return [
        {
            "id": source["id"],
            "text": source["text"] if "text" in source else (DATA / source["id"]).read_bytes().decode(),
            "offset": int(source.get("line_offset", 0)),
        }
        for source in case["sources"]
    ]


def code_of(case):
    """The code of a case. One that is a number has two digits."""
    return case.get("code", f"{int(case['number']):02}" if "number" in case else None)


def report_of(case):
    """The report of a case, or None where the model has no words for it."""
    if NOT_RECKONED & case.keys() or case.get("cache") == "no memory":
        return None
    sources = given_sources(case)
    first = sources[0]["id"]
    labels = []
    for label in case.get("labels", []):
        start, end = ends_of(label["at"])
        labels.append({"id": first, "message": None, "color": None, "order": 0, "priority": 0, **label})
        labels[-1].update(start=start, end=end)
    # (A number that is past TOML's is a text of its digits.)
    told = {**SETTINGS, **case.get("settings", {})}
    return {
        "kind": case.get("kind", "Error"),
        "kind_color": case.get("kind_color"),
        "code": code_of(case),
        "message": case.get("message"),
        "span": [case.get("id", first), *ends_of(case.get("at", "0..0"))],
        "labels": labels,
        "helps": case.get("helps", []),
        "notes": case.get("notes", []),
        "config": {**told, **{it.name: int(told[it.name]) for it in settings.NUMBERS}},
        "cache": "source" if "source" in case else "custom" if "hidden" in case else "sources",
        "sources": sources,
        "hidden": [case["hidden"]] if "hidden" in case else [],
    }
