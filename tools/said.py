"""What tools print, for try-show: the texts of tools/shown/, the commands that made them, and the words that
ariadne-show is given for each.

A text stands in tools/shown/NAME.txt. It is what a command printed of files in the folder data/ of the
program's crate, below which the folder of the command stands too. Where a tool names that folder in full,
the text has @DATA@ for it, and the folder of the tool's own output is @OUT@.
"""

import subprocess
import tempfile
from pathlib import Path
from typing import NamedTuple

ROOT = Path(__file__).resolve().parent.parent
FILES = ROOT / "crates" / "ariadne_show_program" / "data"
SAID = ROOT / "tools" / "shown"
DATA, OUT = b"@DATA@", b"@OUT@"


class Text(NamedTuple):
    """A text: the form of its lines, how the program is asked for it, and how it was made."""

    form: str  # of `FORMS` in marks.py
    command: tuple  # `{}` stands for a file, and `{out}` for a folder that is thrown away
    files: tuple = ()  # patterns below data/; the command is run for each file, or once where there is none
    words: tuple = ()  # for ariadne-show
    folder: str = "."  # the command's, and ariadne-show's, below data/
    like: str = ""  # the text that this one is, where its colours are taken out


C, CPP = ("corpus/c/*.c",), ("corpus/cpp/*.cpp",)
WARN = ("-Wall", "-Wextra", "-pedantic", "-fsyntax-only")
GCC, GXX = ("gcc", *WARN), ("g++", "-std=c++20", *WARN)
CLANG, CLANGXX = ("clang", *WARN), ("clang++", "-std=c++20", *WARN)
RANGES = ("-fdiagnostics-print-source-range-info", "-fno-caret-diagnostics")
CHECKS = "-checks=-*,clang-diagnostic-*,clang-analyzer-*,bugprone-*,readability-braces-*,modernize-use-trailing-*"
TIDY_FILES = ("corpus/c/1[89]*.c", "corpus/c/20*.c", "corpus/cpp/11*.cpp", "corpus/cpp/07*.cpp")
RUST = ("rustc", "--emit=metadata", "-o", "{out}/x.rmeta")
RUST_FILES = ("corpus/rust/[01]*.rs",)
CARGO = ("cargo", "check", "--quiet", "--offline", "--message-format=json", "-j1", "--target-dir={out}")
MYPY = ("mypy", "--cache-dir={out}")
PY = ("corpus/py/*.py",)
CPPCHECK = ("cppcheck", "--enable=all")
CPPCHECK_FILES = ("corpus/c/09*.c", "corpus/c/11*.c", "corpus/c/19*.c", "corpus/c/20*.c", "corpus/cpp/[01][156]*.cpp")
GONE = "cp {} {out}/gone.c; gcc -Wall -fsyntax-only {out}/gone.c; rm {out}/gone.c"
EVENTS = ("gcc", "-fanalyzer", "-fdiagnostics-format=json", "-c", "-o", "{out}/x.o", "{}")
PATHS, PATH_FILES = ("gcc", "-fanalyzer", "-c", "-o", "{out}/x.o", "{}"), ("corpus/events/*.c", "corpus/paths/0[12]*.c")
ROWS, COLOR = ("corpus/paths/03*.c",), "-fdiagnostics-color=always"
IN_UTF8 = ("javac", "-encoding", "UTF-8", "-Xlint", "-d", "{out}", "{}")
IN_ASCII = ("sh", "-c", "LC_ALL=C javac -encoding UTF-8 -Xlint -d {out} {}")
FROM_ASCII = ("sh", "-c", "LC_ALL=C javac -Xlint -d {out} {}")
UNFILED = ("clang", "-Wall", "-DDEFINED=x y", "-c", "-o", "{out}/x.o", "{}")
NARROW = ("-fsyntax-only", "-fmessage-length=120", "{}")
OVERLAPPING = "-checks=-*,readability-braces-*,readability-else-*,readability-implicit-*,readability-simplify-*"
UNUSED = (
    "rustc --crate-type=lib --crate-name=fruit --emit=metadata -o {out}/libfruit.rmeta {}; rustc --crate-type=lib "
    "--emit=metadata -o {out}/x.rmeta -W unused_crate_dependencies --extern fruit={out}/libfruit.rmeta "
    "--error-format=json {}"
)
LINKED = ("-Wall", "-fsyntax-only", "-fdiagnostics-urls=always", "{}")
CARGO_SHORT = (
    "cargo check --offline --message-format=short --color=always --target-dir={out}; "
    "cargo check -v --offline --message-format=short --color=always --target-dir={out}"
)
FIX_ROWS = ("-fsyntax-only", "-Wall", "-fdiagnostics-parseable-fixits", "{}")
ANALYZED = "clang --analyze -Xclang -analyzer-output=sarif -o {out}/log {} 2>{out}/text; cat {out}/log"
GCC_ROWS = "gcc -Wall -Wextra -fsyntax-only -fdiagnostics-format=json {} 2>&1 | jq ."
RUST_ROWS = "rustc --emit=metadata -o {out}/x.rmeta --error-format=json {} 2>&1 | jq ."
PUBLISHED = r"""(
    printf '{"jsonrpc":"2.0","id":0,"method":"initialize","params":{"capabilities":{ }}}\n---\n'
    jq -n --arg at "file://$PWD/{}" --rawfile text {} '{jsonrpc: "2.0", method: "textDocument/didOpen",
        params: {textDocument: {uri: $at, languageId: "c", version: 1, text: $text}}}'
    printf -- '---\n{"jsonrpc":"2.0","id":1,"method":"shutdown"}\n---\n{"jsonrpc":"2.0","method":"exit"}\n'
) | clangd --input-style=delimited --sync 2>/dev/null | sed 's/Content-Length: .*//' | jq 'select(.method)'"""
VETTED = "GOCACHE={out} GO111MODULE=off go vet -json {}"
RULES = '{"no-undef": 2, "no-unused-vars": 1, "no-cond-assign": 2, "no-debugger": 1, "semi": 1}'
ESLINT = ("eslint", "--no-eslintrc", "--rule", RULES)
DISPLAY, CHARS = ("--columns=display",), ("--columns=chars",)
TEXTS = {
    "gcc_carets": Text("gcc", (*GCC, "{}"), C, DISPLAY),
    "gcc_color": Text("gcc", (*GCC, "-fdiagnostics-color=always", "{}"), C, like="gcc_carets"),
    "gcc_json": Text("gcc json", (*GCC, "-fdiagnostics-format=json", "{}"), C),
    "gxx_carets": Text("gcc", (*GXX, "{}"), CPP, DISPLAY),
    "gxx_color": Text("gcc", (*GXX, "-fdiagnostics-color=always", "{}"), CPP, like="gxx_carets"),
    "gxx_json": Text("gcc json", (*GXX, "-fdiagnostics-format=json", "{}"), CPP),
    "clang_carets": Text("clang", (*CLANG, "{}"), C),
    "clang_color": Text("clang", (*CLANG, "-fcolor-diagnostics", "{}"), C, like="clang_carets"),
    "clang_ranges": Text("clang", (*CLANG, *RANGES, "{}"), C),
    "clangxx_carets": Text("clang", (*CLANGXX, "{}"), CPP),
    "clangxx_color": Text("clang", (*CLANGXX, "-fcolor-diagnostics", "{}"), CPP, like="clangxx_carets"),
    "clangxx_ranges": Text("clang", (*CLANGXX, *RANGES, "{}"), CPP),
    "clang_tidy": Text("clang", ("clang-tidy", CHECKS, "{}", "--", *WARN), TIDY_FILES),
    "clang_tidy_color": Text(
        "clang", ("clang-tidy", "--use-color", CHECKS, "{}", "--", *WARN), TIDY_FILES, like="clang_tidy"
    ),
    "rustc": Text("rustc json", (*RUST, "--error-format=json", "{}"), RUST_FILES),
    "rustc_text": Text("rustc", (*RUST, "{}"), RUST_FILES),
    "rustc_color": Text("rustc", (*RUST, "--color=always", "{}"), RUST_FILES, like="rustc_text"),
    "rustc_helps": Text("rustc json", (*RUST, "--error-format=json", "{}"), ("corpus/helps/*.rs",)),
    "cargo_workspace": Text("rustc json", CARGO, folder="corpus/cargo"),
    "cargo_member": Text("rustc json", CARGO, folder="corpus/cargo/pear"),
    "cargo_targets": Text("rustc json", (*CARGO, "--all-targets", "--keep-going"), folder="corpus/cargo"),
    "javac": Text("javac", ("javac", "-Xlint", "-d", "{out}", "{}"), ("corpus/java/*.java",)),
    "mypy": Text("mypy", (*MYPY, "{}"), PY),
    "mypy_columns": Text("mypy", (*MYPY, "--show-column-numbers", "{}"), PY),
    "mypy_end": Text("mypy", (*MYPY, "--show-error-end", "{}"), PY),
    "mypy_pretty": Text("mypy", (*MYPY, "--pretty", "{}"), PY),
    "mypy_pretty_end": Text("mypy", (*MYPY, "--pretty", "--show-error-end", "{}"), PY),
    "cppcheck": Text("cppcheck", (*CPPCHECK, "{}"), CPPCHECK_FILES),
    "cppcheck_gcc": Text("cppcheck", (*CPPCHECK, "--quiet", "--template=gcc", "{}"), CPPCHECK_FILES),
    "pylint": Text("pylint", ("pylint", "{}"), PY),
    "pylint_color": Text("pylint", ("pylint", "--output-format=colorized", "{}"), PY, like="pylint"),
    "erlc": Text("erlc", ("erlc", "-o", "{out}", "{}"), ("corpus/erl/*.erl",), CHARS),
    "shellcheck": Text("shellcheck", ("shellcheck", "-f", "gcc", "{}"), ("corpus/sh/*.sh",), CHARS),
    "clang_tidy_overlaps": Text("clang", ("clang-tidy", OVERLAPPING, "{}", "--"), ("corpus/overlaps/*.cpp",)),
    "gcc_paths": Text("gcc", PATHS, PATH_FILES, DISPLAY),
    "gcc_paths_apart": Text("gcc", (*PATHS, "-fdiagnostics-path-format=separate-events"), PATH_FILES, DISPLAY),
    "gcc_paths_color": Text("gcc", (*PATHS, COLOR), ROWS, DISPLAY),
    "gcc_narrow": Text("gcc", ("gcc", *NARROW), ("corpus/narrow/*.c",), DISPLAY),
    "clang_narrow": Text("clang", ("clang", *NARROW), ("corpus/narrow/*.c",)),
    "gcc_unplaced": Text("gcc", PATHS, ("corpus/unplaced/*.c",), DISPLAY),
    "clang_unfiled": Text("clang", UNFILED, ("corpus/unfiled/*.c",)),
    "clang_asides": Text("clang", (*CLANG, "-Wimplicit-fallthrough", "{}"), ("corpus/asides/*.c",)),
    "clang_spaced": Text("clang ranges", (*CLANG, RANGES[0], "{}"), ("corpus/spaced/*.c",)),
    "clang_ends": Text("clang", (*CLANG, "{}"), ("corpus/ends/*.c",)),
    "javac_ascii": Text("javac", IN_ASCII, ("corpus/java/*.java",)),
    "javac_units": Text("javac", IN_UTF8, ("corpus/units/*.java",)),
    "javac_units_ascii": Text("javac", IN_ASCII, ("corpus/units/*.java",)),
    "javac_bytes": Text("javac", FROM_ASCII, ("corpus/bytes/*.java",)),
    "gxx_unmet": Text("gcc", (*GXX, "{}"), ("corpus/unmet/*.cpp",), DISPLAY),
    "gxx_repeats": Text("gcc", (*GXX, "{}"), ("corpus/repeats/*.cpp",), DISPLAY),
    "gcc_events": Text("gcc json", EVENTS, ("corpus/events/*.c",)),
    "rustc_short": Text("rustc short", (*RUST, "--error-format=short", "{}"), ("corpus/short/*.rs",)),
    "javac_sums": Text("javac", ("javac", "-Xlint", "-d", "{out}", "{}"), ("corpus/sums/*.java",)),
    "mypy_imports": Text("mypy", (*MYPY, "--pretty", "{}"), ("corpus/imports/*.py",)),
    "mypy_lines": Text("mypy", (*MYPY, "--show-error-end", "{}"), ("corpus/lines/*.py",)),
    "gxx_order": Text("gcc", (*GXX, "{}"), ("corpus/order/*.cpp",), DISPLAY),
    "gxx_order_json": Text("gcc json", (*GXX, "-fdiagnostics-format=json", "{}"), ("corpus/order/*.cpp",)),
    "clang_empty": Text("clang", (*CLANG, "{}"), ("corpus/empty/*.c",)),
    "gcc_empty": Text("gcc", (*GCC, "{}"), ("corpus/empty/*.c",), DISPLAY),
    "gcc_links": Text("gcc", ("env", "GCC_URLS=st", "gcc", *LINKED), ("corpus/c/1[15]*.c",), DISPLAY),
    "gcc_links_bell": Text("gcc", ("env", "GCC_URLS=bel", "gcc", *LINKED), ("corpus/c/1[15]*.c",), DISPLAY),
    "pylint_characters": Text("pylint", ("pylint", "{}"), ("corpus/tokens/*.py",)),
    "rustc_crates": Text("rustc json", ("sh", "-c", UNUSED), ("corpus/crates/*.rs",)),
    "rustc_rows": Text("rustc short", (*RUST, "--error-format=short", "{}"), ("corpus/rows/*.rs",)),
    "cargo_short": Text("rustc short", ("sh", "-c", CARGO_SHORT), folder="corpus/rows"),
    "gcc_fixits": Text("gcc", ("gcc", *FIX_ROWS), ("corpus/fixits/*.c",), DISPLAY),
    "gcc_fixits_alone": Text("gcc", ("gcc", "-fno-diagnostics-show-caret", *FIX_ROWS), ("corpus/fixits/*.c",), DISPLAY),
    "gxx_fixits": Text("gcc", ("g++", "-Wold-style-cast", "-pedantic", *FIX_ROWS), ("corpus/fixits/*.cpp",), DISPLAY),
    "clang_fixits": Text("clang", ("clang", *FIX_ROWS), ("corpus/fixits/*.c",)),
    "clangxx_fixits": Text("clang", ("clang++", "-Wextra-semi", *FIX_ROWS), ("corpus/fixits/*.cpp",)),
    "shellcheck_json": Text("shellcheck json", ("shellcheck", "-f", "json1", "{}"), ("corpus/sh/*.sh",)),
    "shellcheck_rows": Text("shellcheck json", ("sh", "-c", "shellcheck -f json1 {} | jq ."), ("corpus/sh/*.sh",)),
    "clang_sarif": Text("sarif", ("sh", "-c", ANALYZED), ("corpus/c/20*.c", "corpus/events/*.c", "corpus/asides/*.c")),
    "gcc_json_rows": Text("gcc json", ("sh", "-c", GCC_ROWS), ("corpus/c/0[1267]*.c", "corpus/c/1[18]*.c")),
    "rustc_json_rows": Text("rustc json", ("sh", "-c", RUST_ROWS), ("corpus/rust/0[1-4]*.rs", "corpus/helps/*.rs")),
    "clangd": Text("lsp", ("sh", "-c", PUBLISHED), ("corpus/c/0[1-3]*.c", "corpus/c/13*.c", "corpus/cpp/14*.cpp")),
    "go_vet_json": Text("go vet json", ("sh", "-c", VETTED), ("corpus/go/*.go",)),
    "eslint_json": Text("eslint json", (*ESLINT, "-f", "json", "{}"), ("corpus/js/*.js",)),
    "gone": Text("gcc", ("sh", "-c", GONE), ("corpus/c/1[178]*.c",)),
    "log": Text("none", ()),
    "make": Text("make", ("make", "--keep-going"), folder="corpus/make", words=DISPLAY),
}


def files_of(text):
    """The files that a text is about, in the order of its runs."""
    return [str(path.relative_to(FILES)) for pattern in text.files for path in sorted(FILES.glob(pattern))]


def run(text, path, out):
    """What a command prints of a file, to both streams as to one."""
    words = [word.replace("{out}", out).replace("{}", path) for word in text.command]
    done = subprocess.run(words, cwd=FILES / text.folder, stdout=subprocess.PIPE, stderr=subprocess.STDOUT, check=False)
    return done.stdout.replace(str(FILES).encode(), DATA).replace(out.encode(), OUT)


def said_now(text):
    """What the command of a text prints now. A line `=== FILE` stands before what it says of a file."""
    with tempfile.TemporaryDirectory() as out:
        if not text.files:
            return run(text, "", out)
        return b"".join(b"=== %s\n" % path.encode() + run(text, path, out) for path in files_of(text))


def as_got(said):
    """What was said, as the program gets it."""
    return said.replace(DATA, str(FILES).encode())


def stored(name):
    """A text as the program gets it."""
    return as_got((SAID / f"{name}.txt").read_bytes())
