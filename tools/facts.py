"""Where the numbers on the users' pages come from, for check-numbers.

A fact is a part of a line of a page, with {} for each number, and what has to stand there for each: a text, or the
least and the most. Both are read from other files, or counted. A part in GIVEN has numbers that nothing here
counts: a convention of the interface, or a fact of another program; and some are counted by another tool.
"""

import re
import tomllib
from functools import cache
from typing import NamedTuple

from gathered import below, libraries
from pages import README, ROOT, code_of, commands_of, section_of, table_of

WORDS = "zero one two three four five six seven eight nine ten eleven twelve".split()
README_PAGE, C, COMPARED, CPP, FROM = "README.md", "docs/C.md", "docs/COMPARED.md", "docs/CPP.md", "docs/FROM_THE_CRATE.md"
INSTALL, PYTHON, RATTLE, RUST = "docs/INSTALL.md", "docs/PYTHON.md", "docs/RATTLE.md", "docs/RUST.md"
SAFE, SHOW, GALLERY, RUN = "docs/SAFE.md", "docs/SHOW.md", "docs/GALLERY.md", "tools/run-built"
SPEED, PROOFS, TRY_SAFE = "docs/dev/SPEED.md", "docs/dev/PROOFS.md", "tools/try-safe"
# Of docs/dev/PROOFS.md: what a crate takes, and what a run of the gate took.
CRATE_MINUTES = re.compile(r"^\|`(\w+)`\|([\d.]*)\|[\d.]*\|[\d.]*\|([\d.]*)\|[\d.]*\|$", re.M)
GATE_MINUTES = re.compile(r"^\|`[\w-]+`\|\w+\|[\d-]+\|(\d+)\|$", re.M)
PROGRAMS = {
    "ariadne-draw": "ariadne_draw_program", "ariadne-brackets": "ariadne_brackets_program",
    "ariadne-show": "ariadne_show_program",
}
LIBRARY = ("sewarqo_c",)
# Workloads of docs/COMPARED.md: what they are there, and what of that is a number.
COMPARED_ROWS = {
    "two": "{} labels in one line", "nested": "{} labels", "nested-x8": "{} labels", "wide": "{} labels in one line",
    "large": "{} labels in {} lines", "index": "the lines of {} bytes",
}


class Fact(NamedTuple):
    """A part of a line of a page, and what stands there for each number."""

    page: str
    part: str
    numbers: tuple = ()


class Within(NamedTuple):
    """A number between two others."""

    least: float
    most: float


# ---- sources


@cache
def text_of(path):
    return (ROOT / path).read_text()


def found(path, pattern):
    """What the group of a pattern is in a file, which has to be the same wherever it is found."""
    (only,) = set(re.findall(pattern, text_of(path), re.M | re.S))
    return only


def count(path, pattern):
    """How often a pattern is found in a file."""
    return len(re.findall(pattern, text_of(path), re.M))


def word(number):
    return WORDS[number]


def lines_of(text, *headings):
    """The rows of the first table with these headings, by their first cell."""
    rows = [list(row.values()) for row in table_of(text, *headings)]
    return {cells[0].strip("`"): cells[1:] for cells in rows}


def speed(workload):
    """Of a workload: how many labels, and what the library, the original and the peer take."""
    labels, _, here, _, original, peer, _ = lines_of(text_of(SPEED), "Workload", "Labels")[workload]
    return labels, here, original, peer


def speed_of_rust(workload):
    """What a workload takes the Rust crate."""
    languages = lines_of(text_of(SPEED), "Workload", "C", "The Rust crate")
    if workload in languages:
        return languages[workload][1].partition(";")[0]
    return found(SPEED, rf"\| `{workload}` \| ([\d,]+) (?=\|(?: `[\w-]+` \| [\d,]+ \|)?$)")


def contents_of(workload):
    """The numbers of what docs/dev/SPEED.md says a workload is, as digits."""
    contents = lines_of(text_of(SPEED), "Workload", "Labels")[workload][-1]
    return [str(WORDS.index(it)) if it in WORDS else it for it in re.findall(r"\d[\d,]*|three", contents)]


def millions(number):
    return str(round(int(number.replace(",", "")) / 10**6))


def standards(kind):
    """The standards for which tools/try-bindings compiles headers: of C, of C++, or of the header for C++."""
    tried = re.findall(r'\(\[[^]]*\], \[([^]]*)\], [^)]*\),$', text_of("tools/try-bindings"), re.M)
    return [it.strip('"').upper() for it in tried[("c", "c++", "hpp").index(kind)].split(", ")]


@cache
def minutes_of(*crates):
    """The processor minutes of crates with those below them, by docs/dev/PROOFS.md."""
    spent = {name: float(proof or 0) + float(build or 0) for name, proof, build in CRATE_MINUTES.findall(text_of(PROOFS))}
    return sum(spent.get(it, 0) for it in below(crates, libraries(ROOT)))


def gate_minutes():
    return float(GATE_MINUTES.findall(text_of(PROOFS))[-1])


def about(minutes):
    """Processor minutes, as a page may round them."""
    return Within(0.9 * minutes, 1.1 * minutes)


def by_clock(minutes):
    """The time of so many processor minutes on four processors: crates wait for others, and at worst for each."""
    return Within(minutes / 4, minutes)


def status(crate, name):
    """A status of a program."""
    return found(f"crates/{crate}/src/fault.rt", rf"^    {name} = (\d+),$")


def lines_of_longest():
    """How many lines the longest label of README.md's command is over."""
    (command,) = commands_of(README.read_text())
    ends = [(int(start), int(end)) for start, end in zip(command.words[3::3], command.words[4::3])]
    start, end = max(ends, key=lambda it: it[1] - it[0])
    return command.input.decode()[start:end].count("\n") + 1


def items_behind(page, lead):
    """How many items the list has that follows a line which ends so."""
    behind = text_of(page).partition(f"{lead}\n\n")[2].partition("\n\n")[0]
    return len(re.findall("^- ", behind, re.M))


def cut_columns():
    """Of the picture of a cut line in docs/SHOW.md: the columns in front of the text, and those of the text."""
    section = text_of(SHOW).partition("\n### Long lines\n")[2]
    width = int(re.search(r"--width (\d+)\n", section)[1])
    row = re.search(r"^ \d+ \| ", section, re.M)[0]
    return str(len(row)), str(width - len(row))


def bytes_of(character):
    return [f"{it:02X}" for it in character.encode()]


def kept_attributes():
    """The numbers of sequences that a line keeps, as docs/SAFE.md tells them: 0 apart."""
    numbers = re.findall(r"\d+", found("crates/ariadne_outputs/src/sequence.rt", r"matches!\(number, ([^)]*)\)"))
    return [numbers[0], "1", *numbers[1:]]


def rows_in_front(path, start, *headings):
    """How many rows of a table are in front of one that begins so."""
    rows = [next(iter(row.values())) for row in table_of(text_of(path), *headings)]
    return rows.index(start)


def measures():
    """Of the calls of the example `arithmetic`: by what the rest is multiplied, and what is added."""
    path = "crates/ariadne_examples/proofs/arithmetic/+parse/Invariants.antt"
    found_here = re.findall(r"^decreases-\w+ l = (\d+) \* \([^)]*\)(?: \+ (\d+))?$", text_of(path), re.M)
    ((times,), added) = {it for it, _ in found_here}, sorted((it or "0" for _, it in found_here), reverse=True)
    return [word(int(times)), *added]


# ---- the facts of each page


def of_readme():
    labels, here, original, peer = speed("two")
    yield "`ariadne` {} to Rattle", original_version()
    yield "and one over {} lines", word(lines_of_longest())
    yield "takes {} instructions. The original takes {}, and codespan-reporting {}.", here, original, peer
    yield "renders {} diagnostics of rustc in {} seconds of a processor and {} MB of memory", *filtered()
    yield "The exit status is {} after an error", status("ariadne_show", "WithErrors")
    yield "and {} crates below", word(len(below(("ariadne",), libraries(ROOT))) - 1)


def original_version():
    return found("crates/ariadne_commands/src/pages.rt", r"port of the Rust crate ariadne ([\d.]+)$")


def filtered():
    """The last row of what docs/dev/SPEED.md counts of ariadne-show."""
    return re.findall(r"^\| ([\d,]+) \| ([\d.]+) \| ([\d.]+) MB \|$", text_of(SPEED), re.M)[-1]


def of_c():
    heap, tab = "bindings/c/heap.c", found("crates/ariadne_calls/src/settings.rt", r"tab_width == 0 \{ (\d+) \}")
    functions = word(count(heap, r"^(?:struct block|void) rattle_\w+\("))
    offset = int(found(C, r"\.line_offset = (\d+)"))
    exported = found("tools/library", r"global: ([\w; ]+); local")
    yield "from {} and {} on", standards("c")[0], standards("c++")[0]
    yield "the shared library, with {} exported calls", word(len(exported.split(";")))
    yield "| columns | 0 is {} |", tab
    yield "gets memory by {} functions", functions
    yield "defines the {} over", functions
    yield "define the {} functions", functions
    yield "All {} must belong to one allocator", functions
    yield "each power of two up to {} dividing", found(heap, r"power of two up to (\d+) that divides")
    yield "For a text of {} bytes with nothing hidden", *contents_of("index")
    taken = {name: millions(cells[0]) for name, cells in lines_of(text_of(SPEED), "Workload", "C", "Contents").items()}
    yield "hidden a call takes {} million instructions", taken["long-safe"]
    yield "in each hundredth line {} million.", taken["long-escapes-safe"]
    yield "With `SEWARQO_RAW` a call takes {} million.", taken["long"]
    yield "At -{}, a label in the middle", found("tools/compare-languages", r'\["cc", "-(O\d)"')
    cut = taken["long-excerpt-safe"], taken["long-end-excerpt-safe"]
    yield "then takes {} million instructions, and a label at the end {} million", *cut
    yield "is lines {} and {} of a large file", f"{offset + 1:,}", f"{offset + 2:,}"


def of_compared():
    crates = found(COMPARED, r"^\| \| Sewarqo \|([^\n]*)\|$").split("|")
    tried = [found("tools/compare/README.md", rf"`{it}` (\d+\.\d+)") for it in ("ariadne", "codespan-reporting")]
    yield "with {} Rust crates: `ariadne` {}, codespan-reporting {},", word(len(crates)), *tried
    for workload, text in COMPARED_ROWS.items():
        labels, here, original, peer = speed(workload)
        told = contents_of(workload) if workload in ("large", "index") else [labels]
        yield f"| `{workload}`: {text} | {{}} | {{}} | {{}} | {{}} |", *told, here, speed_of_rust(workload), original, peer
    yield "| {} instructions |", found(SPEED, r"`two` takes C ([\d,]+) instructions")
    yield "over {} diagnostics of rustc | {} seconds, {} MB |", *filtered()
    yield "fewer than {}.", found("crates/ariadne_layout/src/label_lists.rt", r"A group of (2\^32) labels")


def of_cpp():
    yield "renders diagnostics in {}, over", standards("hpp")[0]


def of_from_the_crate():
    width = found(FROM, r"`\.with_width\((\d+)\)`")
    yield "the Rust crate `ariadne` {}.", original_version()
    yield "and `Result`, in {} lines", word(items_behind(FROM, "in five lines"))
    yield "A span of your own has {} functions", word(code_of(text_of(FROM), "rust").count("    fn "))
    yield "if the width is at least {} |", least_tab()
    yield "cuts lines to {} columns around their labels. If your whole rows have {} columns", width, width


def least_tab():
    return found("crates/ariadne_report/src/config.rt", r"requires \{ (\d+) ≤ tab_width \}")


def of_install():
    c, cpp, hpp = standards("c"), standards("c++"), standards("hpp")
    packages = [row for row in table_of(text_of(INSTALL), "Package", "Contents")]
    programs, library = tuple(PROGRAMS.values()), minutes_of(*LIBRARY)
    rest = minutes_of(*programs, *LIBRARY) - minutes_of(*programs)
    yield "| C | {} | gcc and clang, {} to {} |", c[0], c[0], c[-1]
    yield "| C++ | {}; the C headers alone {} | g++ and clang++, {} to {} |", hpp[0], cpp[0], cpp[0], cpp[-1]
    yield "| Python | {} |", least_python()
    yield "| Rust | {} |", least_rust()
    yield "| {} minutes | {} |", by_clock(minutes_of(*programs)), about(minutes_of(*programs))
    yield "| {} minutes after `bin/prove` or `.ci/run` | {} |", by_clock(rest), about(library)
    yield "by your CI, once | under a second | {} |", about(minutes_of("ariadne"))
    yield "| {} minutes or more | {} |", by_clock(gate_minutes()), about(gate_minutes())
    yield "{} Debian packages if", word(count("bin/release", r"^ +package \w"))
    yield "{} Debian packages if", word(len(packages))
    yield "copies {} crates", word(len(below(("ariadne",), libraries(ROOT))))
    yield "The version is {}, as of the original crate", original_version()


def least_python():
    return found("bindings/python/packing.py", r"^Requires-Python: >=([\d.]+)$")


def least_rust():
    return found("bindings/rust/Cargo.toml", r'^rust-version = "([\d.]+)"$')


def of_python():
    yield "works with Python {} and later", least_python()
    yield "The first {} are subclasses", word(count("bindings/python/sewarqo/_errors.py", r"^class \w+\(SewarqoError\)"))


def of_rattle():
    promised = section_of(text_of(RATTLE), "A caller").partition("pub fn tell")[2].partition("\n{\n")[0]
    yield "Your calls differ in {} ways", word(items_behind(RATTLE, "Your calls differ in four ways:"))
    yield "|n is at least {}|", least_tab()
    yield "the measure is {} times the rest of the input, and {}, {} or {} more", *measures()
    yield "`tell` guarantees {} facts about the picture", word(promised.count("    ensures "))


def of_rust():
    yield "replaces `ariadne` {} in a Rust program", original_version()
    yield "The crate needs Rust {},", least_rust()
    yield "keeps {} KiB for short blocks", 2 ** int(found("bindings/rust/src/heap.rs", r"^const LEN: usize = 1 << (\d+);$")) >> 10


def of_safe():
    two, escape = bytes_of("\u011b"), bytes_of("\u241b")
    width = int(found(TRY_SAFE, r"terminal\.Terminal\(width=(\d+)\)"))
    front = found(TRY_SAFE, r'" " \* \(80 - len\("([^"]*)"\)\)')
    misled = rows_in_front(SAFE, "marks on letters", "Limit", "The smallest example")
    yield "is the bytes {} {}, and {} is CSI there", *two, two[1]
    yield "is the bytes {} {} {}, and {} begins a string there", *escape, escape[1]
    yield "with blanks up to {} columns", width
    yield "{} blanks and `Error: all is well`, a terminal of {} columns", width - len(front), width
    yield "The first {} rows mislead", word(misled)
    yield "none or {}; {} to {}, bold", *kept_attributes()[:3]
    yield "; {} to {}, their ends", *kept_attributes()[3:5]
    yield "painted by {} to {}, {} and {} to {}", *kept_attributes()[5:]
    yield "B up to {}.", found("crates/ariadne_outputs/src/sequence.rt", r"or above\n/// (\d+)\.")
    yield "`a` and a {} U+0301", {"1000": "thousand"}[found(TRY_SAFE, r'"\\u0301" \* (\d+)')]


def tools_of_matchers():
    """The tools of the table of matchers."""
    matchers = tomllib.loads(text_of("crates/ariadne_matcher_tables/data/matchers.toml"))["matcher"]
    return {tool for it in matchers for tool in (it["tool"] if isinstance(it["tool"], list) else [it["tool"]])}


def of_show():
    kinds, wrapping = "crates/ariadne_parse/src/kinds.rt", "crates/ariadne_show/src/wrapping.rt"
    byte = str(2 ** int(found("crates/ariadne_parse/src/colors.rt", r"Option<u(\d+)>")) - 1)
    bits = found("crates/ariadne_parse/src/report.rt", r"Option<i(\d+)>")
    for name, meaning in (
        ("Shown", "everything was shown, and no diagnostic"), ("WithErrors", "everything was shown, and some"),
        ("WrongWords", "the arguments are invalid"), ("Failed", "reading or writing failed"),
        ("BrokenPipe", "the reader of the output was gone"),
    ):
        yield f"| {{}} | {meaning}", status("ariadne_show", name)
    yield "the least severity for exit status {}.", status("ariadne_show", "WithErrors")
    yield "the program ends with status {},", status("ariadne_show", "Failed")
    yield "There are at most {} ranges", found("crates/ariadne_parse/src/locations.rt", r"RANGES: u8 = (\d+);")
    yield "(of the first {})", word(int(found("crates/ariadne_parse/src/lines.rt", r"COLONS: u8 = (\d+);")))
    yield "capital letters and {} digits or more", word(int(found(kinds, r"digits\.len\(\) > (\d+)")) + 1)
    yield "one letter, {} digits and a colon", word(int(found(kinds, r"code\.len\(\) == (\d+) &&")) - 1)
    yield "`Fixed`, {} blanks to the right", word(len(found("tools/shown/cargo_short.txt", r"m( +)Fresh\b")))
    shift = found("crates/ariadne_documents/src/document.rt", r"MOST_BYTES: usize = 1 << (\d+);")
    yield "A document has at most {} MB", str(2 ** (int(shift) - 20))
    yield "| any program | SARIF {} |", found("crates/ariadne_outputs/src/sarif.rt", r'\\"version\\":\\"([\d.]+)\\"')
    yield "| {} tools | the forms of a table |", str(len(tools_of_matchers()))
    yield "one SARIF {} log", found("crates/ariadne_outputs/src/sarif.rt", r'\\"version\\":\\"([\d.]+)\\"')
    yield "come first, {} columns here, and the remaining {} are for the text", *cut_columns()
    yield "into rows of {} columns less", found(wrapping, r"const NAME: usize = (\d+);")
    yield "{} further members of a label", word(len(table_of(text_of(SHOW), "Member", "Meaning", "Default"))).title()
    yield "an integer of {} bits", bits
    yield "as a number from 0 to {}, one of a terminal's {} colours", byte, int(byte) + 1
    yield "each from 0 to {}, is a colour too", byte


def of_gallery():
    yield "There are {} kinds.", word(count("crates/ariadne_report/src/kind.rt", r"^    [A-Z]\w*(?:\(.*\))?,$"))
    yield "What compilers say: {} errors", word(section_of(text_of(GALLERY), "What compilers say").count("and rendered"))
    yield "Here are {} errors, each as", word(section_of(text_of(GALLERY), "What compilers say").count("and rendered"))
    yield "The exit status is {} if all brackets are balanced", status("ariadne_commands", "Clean")
    yield "and {} if some are not", status("ariadne_commands", "Findings")
    yield "Status {}: there is no path", status("ariadne_commands", "BadInput")
    yield "Status {}: the writer failed", status("ariadne_commands", "Failed")


FACTS_OF = {
    README_PAGE: of_readme, C: of_c, COMPARED: of_compared, CPP: of_cpp, FROM: of_from_the_crate, INSTALL: of_install,
    PYTHON: of_python, RATTLE: of_rattle, RUST: of_rust, SAFE: of_safe, SHOW: of_show, GALLERY: of_gallery,
}


def facts():
    """All facts."""
    return [Fact(page, part, numbers) for page, of in FACTS_OF.items() for part, *numbers in of()]
