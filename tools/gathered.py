#!/usr/bin/env python3
"""One crate of what several have, so that one unproved build serves all of them: `rt try` reads and compiles
all libraries anew each time.

usage: tools/gathered.py CLONE CRATE..   makes the crate `gathered_programs` in a clone, which has the
                                         sources of these crates and of what they stand on

Each crate is a module `of_NAME` of the new one, whose file is its `lib.rt` or `main.rt`, and `crate::` in it
is that module. Of the programs that one runs which the variable ARIADNE_PROGRAM names. The tests of the crates
are functions like others: where the variable ARIADNE_TEST is there, the test that it names runs in the place of
a program, a test `a::b` of the crate NAME as `of_NAME::a::b`. The status is not 0 where the test fails, or where
there is none of this name. Without an environment the new program keeps itself, as tools/keeping tells.
"""

import re
import sys
from pathlib import Path

sys.dont_write_bytecode = True
from helping import tell_help

ROOT = Path(__file__).resolve().parent.parent
TACTIC = "#![tactic(auto)]\n"
PROGRAMS = "gathered_programs"
MAIN = re.compile(r"^fn main\((.*) -> (.*) \{$", re.M)
TEST = re.compile(r"#\[test\]\nfn (\w+)\(([^)]*)\)( -> )?(.*?\n\})", re.S)
# What a test takes: only `main` itself may hand on the runtime as one that can abort, to a type parameter.
ABLE = "<R: std::rt::Runtime + std::alloc::AllocGlobal + std::process::Abort>(rt: R, host: HostRuntime)"
# What stands for the status of a program, by what its `main` returns.
STATUS = {
    "ExitCode": "Ok({})",
    "io::Result<ExitCode>": "{}",
    "io::Result<()>": "{}.map(|()| ExitCode::SUCCESS)",
}
# What stands for the status of a test, which returns what a `main` may.
ENDED = "std::process::Termination::report({}, &host)"
PROGRAM = """\
//! Programs and tests of several crates.
#![tactic(auto)]

{modules}
use std::process::ExitCode;

/// Runs the program that the environment names.
fn program(rt: HostRuntime) -> std::io::Result<ExitCode> {{
    let name = std::env::var(&rt, "ARIADNE_PROGRAM").unwrap_or(String::new(rt.alloc()));
    match name.as_str() {{
{arms}        _ => Ok(ExitCode::FAILURE),
    }}
}}

/// Runs a test.
fn run_test{able}, name: &str) -> ExitCode {{
    match name {{
{tests}        _ => ExitCode::FAILURE,
    }}
}}
"""


def libraries(root):
    """The crates of this repository, each with the libraries that its line of crates.txt names."""
    text = re.sub(r"#.*", "", (root / "crates.txt").read_text())
    return {line.split()[0]: named.split() for line, colon, named in map(colon_cut, text.split("\n")) if colon}


def colon_cut(line):
    return line.partition(":")


def below(crates, uses):
    """The crates of this repository that these stand on, lowest first."""
    found = []
    for crate in crates:
        for library in below(uses[crate], uses) if crate in uses else []:
            found += [library] * (library not in found)
        found += [crate] * (crate in uses and crate not in found)
    return found


def named_by(crates, uses):
    """The libraries that these crates name."""
    return sorted({library for crate in crates for library in uses[crate]})


def tests_of(root, crate):
    """A crate's tests: the name of each, as `rt` tells it, and what calls it, below the crate's own module."""
    source = root / "crates" / crate / "src"
    for path in sorted(source.rglob("*.rt")):
        modules = [it for it in path.relative_to(source).with_suffix("").parts if it not in ("lib", "main")]
        for name, _, _, _ in TEST.findall(path.read_text()):
            test = "::".join([*modules, name])
            yield test, ENDED.format(f"of_{crate}::{test}(rt, host)")


def function_of(test):
    """The function that others can call in the place of a test."""
    name, _, result, body = test.groups(default="")
    return f"pub fn {name}{ABLE}{result}{body.replace('rt.stderr()', 'host.stderr()')}"


def gather_crate(source, target, module):
    """Copies the sources of a crate as those of a module, whose tests are functions that others can call."""
    for path in sorted(source.rglob("*.rt")):
        name = path.relative_to(source)
        copy = target / f"{module}.rt" if str(name) in ("lib.rt", "main.rt") else target / module / name
        copy.parent.mkdir(parents=True, exist_ok=True)
        text = path.read_text().replace(TACTIC, "").replace("crate::", f"crate::{module}::")
        text = TEST.sub(function_of, text.replace("#[cfg(test)]\nmod ", "pub mod ").replace("#[cfg(test)]\n", ""))
        copy.write_text(MAIN.sub(r"pub fn program(\1 -> \2 {", text))


def gather_programs(clone, crates):
    """Makes the crate of these programs and tests in a clone that has their sources."""
    uses = libraries(clone)
    own = clone / "crates" / PROGRAMS / "src"
    for crate in crates:
        gather_crate(clone / "crates" / crate / "src", own, f"of_{crate}")
    modules = "".join(f"mod of_{crate};\n" for crate in sorted(crates))
    arms = "".join(arm_of(clone, crate) for crate in crates)
    tests = "".join(f'        "of_{it}::{test}" => {call},\n' for it in crates for test, call in tests_of(clone, it))
    keeping = (ROOT / "tools/keeping").read_text()
    text = PROGRAM.format(modules=modules, arms=arms, tests=tests, able=ABLE.removesuffix(")"))
    (own / "main.rt").write_text(text + keeping)
    with (clone / "crates.txt").open("a") as lines:
        lines.write(f"{PROGRAMS}: {' '.join(named_by(crates, uses))}\n")


def arm_of(clone, crate):
    """What runs a program, or nothing where the crate is none."""
    main = clone / "crates" / crate / "src/main.rt"
    if not main.exists():
        return ""
    status = STATUS[MAIN.search(main.read_text())[2]]
    return f'        "{crate}" => {status.format(f"of_{crate}::program(rt)")},\n'


if __name__ == "__main__":
    tell_help(__doc__)
    gather_programs(Path(sys.argv[1]), sys.argv[2:])
