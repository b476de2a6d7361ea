"""A whole source as Rust: without what is there for proofs, with the head of a crate and the runtime of a `main` or a
test."""

from __future__ import annotations

import re
from dataclasses import dataclass

from .pages import Names, with_documents
from .source import Source
from .stripping import Edits, strip
from .tokens import Trouble

# Names of the kit's prelude that Rust's lacks. A file that has one gets a line that brings them in.
PRELUDE = {"Vec", "String", "Box", "HostRuntime", "AllocGlobal", "Print"}
PRELUDE_LINE = "use std::prelude::kit::*;"
HEAD = ["#![no_std]", "", "#[macro_use]", "extern crate rattle_std as std;"]
OF_SPECS = ["", "#[allow(non_snake_case)]", "pub mod specs;"]      # pages of documentation alone
OWN_HEAD = re.compile(r"(?:\s*(?://!|#!\[)[^\n]*\n)*")
RUNTIME = "std::rt::host()"
RUNTIME_TAKEN = re.compile(r"(?:#\[test\]\s*fn \w+|\bfn main)\(((\w+): HostRuntime,?)\)[^{]*\{")

# What the system starts on Unix: docs/EXPORT.md says why a program has a start of its own.
NO_MAIN = "#![cfg_attr(unix, no_main)]"
START = """
// What the system calls.
#[cfg(unix)]
mod start {
    #[unsafe(no_mangle)]
    extern "C" fn main(count: i32, first: *mut *const core::ffi::c_char) -> i32 {
        std::process::started(super::main, count, first)
    }
}
"""


@dataclass(frozen=True)
class Role:
    """What a file is in its crate: its root, the root of a program, or neither."""

    root: bool = False
    program: bool = False
    shows: bool = False          # the root of a crate with definitions


def exported(text: str, role: Role = Role(), names: Names | None = None) -> str:
    """The file as Rust, with names that lead to their definitions."""
    source = Source(text, names)
    edits = Edits(text)
    strip(source, edits)
    for found in RUNTIME_TAKEN.finditer(source.code()):      # Rust hands `main` and the tests no runtime
        edits.put(*found.span(1), "")
        edits.put(found.end(), found.end(), f"\n    let {found[2]} = {RUNTIME};")
    new = with_documents(edits.done(), source.names)
    refuse_rest(Source(new))
    start = START if role.program else ""
    return with_head(new, head_of(source, role)) + start


def refuse_rest(left: Source) -> None:
    """Refuses a text in which something is left that a proof alone could read."""
    for token in left.tokens:
        if token.kind in ("clause", "ghost"):
            raise Trouble(f"left: {token.text[:40]!r}")
        if token.kind not in ("comment", "text", "char") and not token.text.isascii():
            raise Trouble(f"left: {token.text!r}")


def head_of(source: Source, role: Role) -> list[str]:
    """The lines that a file gets before its first item."""
    lines = [NO_MAIN] if role.program else []
    lines += HEAD if role.root else []
    lines += OF_SPECS if role.shows else []
    if any(token.kind == "word" and token.text in PRELUDE for token in source.tokens):
        lines += [PRELUDE_LINE]
    return lines


def with_head(text: str, head: list[str]) -> str:
    """The text with these lines after its own comment and its attributes of the whole file."""
    own = OWN_HEAD.match(text)
    if not head or own is None:
        return text
    after = text[own.end():]
    return own[0] + "\n" * bool(own[0]) + "\n".join(head) + "\n" + "\n" * (not after.startswith("\n")) + after
