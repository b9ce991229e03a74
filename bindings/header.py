"""header.py man VERSION FOLDER HEADER..: writes a manual page for each function of these headers to
FOLDER, and one of all of them.
header.py rust HEADER..: writes what the crate nuzolged-sys declares of them.

A header is read as it is laid out: a comment of two stars comes before its function and may end
in @param, a comment that begins with ---- begins a section, and another belongs to what follows it.
NUZ_MUST_USE, in a line of its own, is for compilers and is left out.
"""
from __future__ import annotations

import re
import sys
from dataclasses import dataclass, field
from pathlib import Path
from typing import Iterator

#: The parts of a header, in their order: comments, and what is declared or defined.
PARTS = re.compile(
    r"(?P<comment>/\*.*?\*/)"
    r"|(?P<define>^#define (?!NUZ_MUST_USE)\w+(?:\(\w+\))?(?:\\\n|[^\n])*)"
    r"|(?P<opaque>^typedef struct \w+ \w+;)"
    r"|(?P<struct>^typedef struct \w+ \{.*?^\} \w+;)"
    r"|(?P<enum>^enum \{.*?\};)"
    r"|(?P<callback>^typedef \w+ \w+\([^;]*\);)"
    r"|(?P<inline>^static inline [^{]*\{.*?^\})"
    r"|(?P<function>^\w[\w ]*[ *]nuz_\w+\([^;]*\);)",
    re.DOTALL | re.MULTILINE,
)
PARAMETER = re.compile(r"^@param (\w+) ", re.MULTILINE)


@dataclass
class Part:
    """Something that a header declares or defines, with its comment."""

    kind: str
    code: str
    text: str
    header: str
    #: The comment of its section, whose first line is its heading.
    section: str
    #: The function before it of which it may say that it is the same.
    same_as: str = ""

    @property
    def name(self) -> str:
        """The name of a function."""
        found = re.search(r"\b(nuz_\w+)\(", self.code)
        return found[1] if found else ""

    @property
    def prototype(self) -> str:
        """A function without its body."""
        return self.code.split("{")[0].removeprefix("static inline ").rstrip(" ;") + ";"


@dataclass
class Header:
    """What is read of a header."""

    name: str
    head: str
    parts: list[Part] = field(default_factory=list)


def unstarred(comment: str) -> str:
    """The text of a comment."""
    inner = re.sub(r"^/\*+ ?|\s*\*/$", "", comment)
    return "\n".join(re.sub(r"^ \* ?", "", line).rstrip() for line in inner.split("\n")).strip()


def read(path: Path) -> Header:
    """Reads a header."""
    source = path.read_text()
    comment, section, same_as = "", "", ""
    header = Header(path.name, "")
    for found in PARTS.finditer(source):
        kind, code = str(found.lastgroup), found[0]
        if kind != "comment":
            part = Part(kind, code, comment, path.name, section, same_as)
            header.parts.append(part)
            if part.kind in ("function", "inline") and not comment.startswith("The same"):
                same_as = part.name
            comment = ""
        elif code.startswith("/* ----"):
            section = unstarred(code).removeprefix("---- ")
        elif not header.head:
            header.head = unstarred(code).split(": ", 1)[1]
        else:
            comment = unstarred(code)
    return header


# ---- manual pages


def escaped(text: str) -> str:
    """A line of text for troff, with the library's names in bold."""
    text = text.replace("\\", "\\e").replace("-1", "\\-1")
    text = re.sub(r"\b(nuz_\w+|NUZ_\w+)", r"\\fB\1\\fR", text)
    return "\\&" + text if text[:1] in ".'" else text


def verbatim(code: str) -> Iterator[str]:
    yield ".nf"
    for line in code.split("\n"):
        plain = line.replace("\\", "\\e").replace("-", "\\-")
        yield "\\&" + plain if plain[:1] in ".'" else plain
    yield ".fi"


def flowing(text: str) -> Iterator[str]:
    """Paragraphs of a comment: with items, if lines begin with -, and unchanged, if they have
    columns."""
    for paragraph in text.split("\n\n"):
        yield ".PP"
        if re.search(r"\S {3,}\S", paragraph):
            yield from verbatim(paragraph)
            continue
        for line in paragraph.split("\n"):
            if line.startswith("- "):
                yield ".IP \\(bu 2"
            yield escaped(line.removeprefix("- ").strip())


def first_sentence(text: str) -> str:
    """What a page is about, in one line of plain text."""
    whole = " ".join(text.split())
    sentence = re.split(r"(?<=[a-z0-9])[.:;] |\.$", whole)[0]
    return (sentence[0].lower() + sentence[1:]).replace("\\", "\\e")


def described(part: Part) -> tuple[str, list[tuple[str, str]]]:
    """What is said of a function, and of its arguments."""
    words = PARAMETER.split(part.text)
    text = words[0].strip()
    if text.startswith("The same"):
        text = text.replace("The same", f"The same as {part.same_as}", 1)
    return text, list(zip(words[1::2], words[2::2]))


def page(name: str, version: str, brief: str, body: Iterator[str]) -> str:
    """A page, of some body."""
    head = [f'.TH {name} 3 "" "nuzolged {version}" "Nuzolged"', ".SH NAME", f"{name} \\- {brief}"]
    return "\n".join([*head, *body]) + "\n"


def of_function(part: Part) -> Iterator[str]:
    """The body of the page of a function."""
    text, arguments = described(part)
    yield ".SH SYNOPSIS"
    yield from verbatim(f"#include <{part.header}>\n\n{part.prototype}")
    yield ".SH DESCRIPTION"
    yield from flowing(text)
    if arguments:
        yield ".SH ARGUMENTS"
    for name, said in arguments:
        yield ".TP"
        yield f".I {name}"
        yield from (escaped(line.strip()) for line in said.strip().split("\n"))
    heading, _, about = part.section.partition("\n")
    if about.strip():
        yield f'.SH "IN COMMON: {heading.upper()}"'
        yield from flowing(about.strip())
    yield ".SH SEE ALSO"
    yield ".BR nuzolged (3)"


def of_headers(headers: list[Header]) -> Iterator[str]:
    """The body of the page of all of them."""
    for header in headers:
        yield f'.SH "{header.name.upper()}"'
        yield from flowing(header.head)
        yield from of_types(header)
    yield ".SH FUNCTIONS"
    section = ""
    for part in (part for header in headers for part in header.parts if part.name):
        if part.kind not in ("function", "inline"):
            continue
        if part.section.split("\n")[0] != section:
            section = part.section.split("\n")[0]
            yield f'.SS "{section or part.header}"'
        yield ".TP"
        yield f".BR {part.name} (3)"
        yield escaped(first_sentence(described(part)[0]))


def of_types(header: Header) -> Iterator[str]:
    """The types and numbers of a header."""
    for part in header.parts:
        if part.kind in ("function", "inline") or not part.text:
            continue
        yield from flowing(part.text)
        yield ".PP"
        yield from verbatim(part.code)


def write_pages(version: str, folder: Path, headers: list[Header]) -> None:
    """Writes the pages of headers to a folder."""
    folder.mkdir(parents=True, exist_ok=True)
    brief = "a POSIX file tree in memory, under nested transactions"
    (folder / "nuzolged.3").write_text(page("nuzolged", version, brief, of_headers(headers)))
    for part in (part for header in headers for part in header.parts):
        if part.kind in ("function", "inline"):
            said = page(part.name, version, first_sentence(described(part)[0]), of_function(part))
            (folder / f"{part.name}.3").write_text(said)


# ---- Rust

SCALARS = {
    "uint8_t": "u8",
    "uint32_t": "u32",
    "uint64_t": "u64",
    "int64_t": "i64",
    "size_t": "usize",
    "bool": "bool",
    "char": "c_char",
    "void": "c_void",
}
CALLBACKS = ("nuz_copy_request", "nuz_copy_around", "nuz_touched_each")
INTEGERS = {"UINT32_MAX": "u32::MAX", "UINT64_MAX": "u64::MAX"}


def rust_type(c_type: str, stars: int, is_member: bool = False) -> str:
    """A type of C, without its stars, and with so many of them."""
    is_const = c_type.startswith("const ")
    name = c_type.removeprefix("const ").strip()
    if name in CALLBACKS:
        return f"Option<{name}>" if is_member else name
    made = SCALARS.get(name, name)
    for depth in range(stars):
        made = ("*const " if is_const and depth == 0 else "*mut ") + made
    return made


def rust_variable(declared: str, is_member: bool = False) -> str:
    """A parameter or a member of C."""
    found = re.fullmatch(r"\s*([\w ]+?)\s*(\**)(\w+)(?:\[(\w+)\])?\s*", declared)
    assert found, declared
    c_type, stars, name, count = found.groups()
    made = rust_type(c_type, len(stars), is_member)
    return f"{name}: " + (f"[{made}; {count} as usize]" if count else made)


def rust_docs(text: str) -> Iterator[str]:
    """A comment of Rust. The items of @param become a list."""
    said = PARAMETER.sub(r"- `\1`: ", text)
    for line in said.split("\n"):
        plain = re.sub(r"\b(nuz_\w+|NUZ_\w+)\b", r"`\1`", line)
        yield ("/// " + plain.replace("``", "`")).rstrip()


def rust_number(value: str) -> str:
    """A number of C."""
    value = re.sub(r"UINT64_C\((\w+)\)", r"\1", value.strip())
    if re.fullmatch(r"0[0-7]+", value):
        return "0o" + value[1:]
    return INTEGERS.get(value, value)


def rust_function(code: str, is_type: bool = False) -> str:
    """A function of C, or the type of one."""
    found = re.fullmatch(r"(?:typedef )?([\w ]+?)\s*(\**)(nuz_\w+)\((.*)\);", code, re.DOTALL)
    assert found, code
    gives, stars, name, takes = found.groups()
    arguments = [] if takes.strip() == "void" else takes.split(",")
    listed = ", ".join(rust_variable(argument) for argument in arguments)
    plain = gives == "void" and not stars
    answer = "" if plain else " -> " + rust_type(gives, len(stars))
    if is_type:
        return f'pub type {name} = unsafe extern "C" fn({listed}){answer};'
    return f"pub fn {name}({listed}){answer};"


def rust_struct(code: str) -> Iterator[str]:
    inner = code[code.index("{") + 1 : code.rindex("}")]
    yield "#[repr(C)]"
    is_plain = not re.search(r"\bchar\b|\*", re.sub(r"/\*.*?\*/", "", inner, flags=re.DOTALL))
    yield f"#[derive(Clone, Copy, Debug{', Default, PartialEq, Eq' if is_plain else ''})]"
    yield f"pub struct {code.split()[2]} {{"
    for member, said in re.findall(r"([^;/]+);\s*(?:/\*(.*?)\*/)?", inner, re.DOTALL):
        variable = rust_variable(member, is_member=True)
        yield from rust_docs(one_line(said) or f"`{variable.split(':')[0]}`")
        yield f"pub {variable},"
    yield "}"


def one_line(comment: str) -> str:
    """The text of a comment after something."""
    return " ".join(re.sub(r"\n\s*\*? ?", " ", comment).split())


def rust_enum(code: str, text: str) -> Iterator[str]:
    inner = re.sub(r"/\*.*?\*/", "", code, flags=re.DOTALL)
    said = dict(re.findall(r"(NUZ_\w+) = [^/,}]*,?\s*/\* (.*?) \*/", code, re.DOTALL))
    about = text.replace("\n", " ").split(". ")[0].rstrip(".") + "."
    for name, value in re.findall(r"(NUZ_\w+) = ([^,}]+)", inner):
        yield from rust_docs(one_line(said.get(name, "")) or about)
        yield f"pub const {name}: u32 = {rust_number(value)};"


def rust_define(code: str, text: str) -> Iterator[str]:
    name, _, value = code.removeprefix("#define ").replace("\\\n", " ").partition(" ")
    value = value.strip()
    if "(" in name or not value:
        return
    if value.startswith('"'):
        kind, made = "&str", value
    elif name.startswith("NUZ_LIMITS_"):
        kind, made = "nuz_limits", rust_limits(value)
    elif value.startswith("{"):
        kind, made = "nuz_tree", "nuz_tree { at: core::ptr::null_mut() }"
    else:
        kind, made = "u32", rust_number(value)
    yield from rust_docs(text or f"`{name}`")
    yield f"pub const {name}: {kind} = {made};"


def rust_limits(value: str) -> str:
    names = ("file_size", "links", "depth", "transactions", "calls")
    values = map(rust_number, value.strip("{} ").split(","))
    given = ", ".join(f"{name}: {number}" for name, number in zip(names, values))
    reserved = ", reserved: [0; 3]" if value.count("{") > 1 else ""
    return f"nuz_limits {{ {given}{reserved} }}"


def rust_part(part: Part) -> Iterator[str]:
    """The declarations and definitions, except functions."""
    if part.kind == "struct":
        yield from rust_docs(part.text)
        yield from rust_struct(part.code)
    elif part.kind == "opaque":
        name = part.code.split()[2]
        yield from rust_docs(part.text)
        yield f"#[repr(C)] pub struct {name} {{ _private: [u8; 0] }}"
    elif part.kind == "callback":
        yield from rust_docs(part.text)
        yield rust_function(part.code, is_type=True)
    elif part.kind == "enum":
        yield from rust_enum(part.code, part.text)
    elif part.kind == "define":
        yield from rust_define(part.code, part.text)


def rust(headers: list[Header]) -> Iterator[str]:
    """What the crate declares."""
    parts = [part for header in headers for part in header.parts]
    yield f"// Written by header.py from {' and '.join(header.name for header in headers)}."
    yield "#![allow(clippy::doc_lazy_continuation)]"
    yield "use std::os::raw::{c_char, c_void};"
    for part in parts:
        yield from rust_part(part)
    yield 'extern "C" {'
    for part in (part for part in parts if part.kind == "function"):
        yield from rust_docs(part.text)
        yield rust_function(part.code)
    yield "}"


def main(words: list[str]) -> None:
    if words[:1] == ["man"] and len(words) > 3:
        write_pages(words[1], Path(words[2]), [read(Path(name)) for name in words[3:]])
    elif words[:1] == ["rust"] and len(words) > 1:
        print("\n".join(rust([read(Path(name)) for name in words[1:]])))
    else:
        sys.exit(__doc__)


if __name__ == "__main__":
    main(sys.argv[1:])
