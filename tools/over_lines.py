"""Random reports whose labels run over short and long lines, with the pictures that report_model.py reckons;
and the same reports over excerpts, as docs/C.md tells to cut them out of large sources.

Each source ends in lines without a label, of which each has an end. So lines that are added behind a source
change no picture, but where more lines are shown near others than these.
"""

import random
from itertools import count

import settings
from cases import LAST_OFFSET, SETTINGS, members_told
from many import MANY
from report_model import Model, Source, sources_of

PIECES = (*MANY.LETTERS, *MANY.CONTROLS, *MANY.BLANKS)
LINE_PIECES = (0, 0, 2, 8, 60)  # that a line has at the most
CONTEXT_LINES = (0, 0, 0, 1, 1, 3, 3, LAST_OFFSET)
FEW_CONTEXT_LINES = 3
LAST_LINES = "y\n" * FEW_CONTEXT_LINES
# A value of each setting that changes some pictures.
OTHER_VALUES = {it.name: it.other for it in settings.SETTINGS}


def random_source(chance, source_id):
    """A source of an id, with lines of very different lengths."""
    lengths = chance.choices(LINE_PIECES, k=chance.randint(1, 12))
    lines = (MANY.random_text(chance, PIECES, most) + chance.choice(MANY.LINE_ENDS) for most in lengths)
    return {"id": source_id, "text": "".join(lines) + LAST_LINES, "offset": 0}


def random_offset(chance, source):
    """An offset on any line of a source, but for its last ones."""
    line = chance.randrange(len(source.lines) - FEW_CONTEXT_LINES)
    return source.starts[line] + chance.randrange(len(source.lines[line]))


def random_span(chance, source, others):
    """A start and an end in a source: those of a short piece, of one as long as another, or of any."""
    start, last = sorted((random_offset(chance, source), random_offset(chance, source)))
    size, way = last - start + chance.choice((0, 1)), chance.random()
    if way < 0.2:
        size = chance.randint(0, 3)
    elif way < 0.4 and others:
        first, past = chance.choice(others)
        size = past - first
    return start, min(start + size, len(source.text) - len(LAST_LINES))


def random_places(chance, sources):
    """The report's own place and those of its labels, each an id and a span in its source."""
    places = []
    for _ in range(chance.randint(2, 9)):
        source_id = chance.choice(list(sources))
        others = [span for other_id, *span in places if other_id == source_id]
        places.append((source_id, *random_span(chance, sources[source_id], others)))
    return places


def random_report(seed, number):
    """The report of a number in the run of a seed, in characters, with its picture. Its texts and the other
    settings are those of a report of try-many."""
    chance = random.Random(f"over lines {seed} {number}")
    report = MANY.random_report(f"over lines {seed}", number)
    context_lines, color = chance.choice(CONTEXT_LINES), chance.random() < 0.5
    config = dict(report["config"], index_type="Char", color=color, context_lines=context_lines)
    cache = "source" if report["cache"] == "source" else "sources"
    given = MANY.random_sources(chance, cache, config["tab_width"], random_source)
    own, *places = random_places(chance, sources_of({"sources": given}))
    told = {"config": config, "cache": cache, "sources": given, "hidden": [], "span": own}
    report.update(told, labels=MANY.random_labels(chance, places))
    return dict(report, picture=Model(report).picture())


def has_few_context_lines(config):
    """Whether lines that are added behind a source change nothing of a picture with these settings."""
    return config.get("context_lines", SETTINGS["context_lines"]) <= FEW_CONTEXT_LINES


def misread_report(seed, name):
    """The first report of a seed with another value of this setting than its picture has, which shows that: it
    would have another picture, and so would its excerpt."""
    for number in count():
        report = random_report(seed, number)
        told = dict(report, config={**report["config"], name: OTHER_VALUES[name]})
        pictures = [Model(it).picture() for it in (told, excerpt_of(told))]
        if has_few_context_lines(told["config"]) and report["picture"] not in pictures:
            return told


def wrong_reports(seed):
    """Reports with wrong pictures: each is misread in a setting, and the picture of the last one lacks its end."""
    misread = [misread_report(seed, name) for name in SETTINGS]
    return [*misread, dict(misread[0], picture=Model(misread[0]).picture()[:-1])]


def excerpt_of(report):
    """The same report over excerpts: of each source all lines from the first to the last that a label or the
    report's own start is on, and those near them."""
    own_id, own, _ = report["span"]
    near = report["config"]["context_lines"]
    spans = [(own_id, own, own), *((it["id"], it["start"], it["end"]) for it in report["labels"])]
    excerpts, begins = [], {}
    for given in report["sources"]:
        source = Source(given)
        ends = ((start, max(start, end - 1)) for source_id, start, end in spans if source_id == given["id"])
        lines = [source.line_at(offset) for pair in ends for offset in pair] or [0]
        first = max(min(lines) - near, 0)
        text = "".join(source.lines[first : max(lines) + near + 1])
        excerpts.append(dict(given, text=text, offset=given["offset"] + first))
        begins[given["id"]] = source.starts[first]

    def moved(label):
        begin = begins[label["id"]]
        return dict(label, start=label["start"] - begin, end=label["end"] - begin)

    own -= begins[own_id]
    return dict(report, sources=excerpts, span=(own_id, own, own), labels=list(map(moved, report["labels"])))


def cases_of(report):
    """The report as cases with its picture, in both kinds of offsets, if none lies inside a character."""
    for told in filter(None, (report, MANY.with_other_offsets(report))):
        name = f"{report['name']} {told['config']['index_type']}"
        yield {**members_told(name, told), "picture": report["picture"]}
