#!/usr/bin/env python3
"""c_unproved.py SRC HEADER SHIM NAMES

Makes a program of a copy of the crate mr_c, for tools/c-library --unproved: `rt try` makes a module of programs alone. SRC is the crate's
src/ in that copy, whose lib.rt becomes a main.rt that calls each export. SHIM gets the C functions of HEADER around them: a Rattle function
takes an mr_version as two numbers, where C has it as a struct. NAMES gets sed's commands that give the exports in the module's text the
names that these functions call, and hide the program's main.
"""
import re
import sys
from pathlib import Path

EXPORT = re.compile(r'#\[unsafe\(no_mangle\)\]\s*(?:///[^\n]*\s*)*pub extern "C" fn (\w+)\(')
# Nothing runs it: its calls only keep the exports in the module.
MAIN = "\nfn any<T>() -> T {\n    loop {}\n}\n\nfn main() {\n%s}\n"


def parts(text):
    """The pieces between the commas that stand in no brackets."""
    found, depth, piece = [], 0, ""
    for letter in text:
        depth += (letter in "([<{") - (letter in ")]>}")
        if letter == "," and depth == 0:
            found.append(piece)
            piece = ""
        else:
            piece += letter
    return [it.strip() for it in [*found, piece] if it.strip()]


def arguments_at(text, at):
    """The text up to the bracket that closes the one before this place."""
    depth, end = 1, at
    while depth:
        depth += {"(": 1, ")": -1}.get(text[end], 0)
        end += 1
    return parts(text[at : end - 1])


def exports_of(src):
    """The path of each export, its name, and how many arguments it takes."""
    for path in sorted(src.glob("**/*.rt")):
        module = re.sub(r"(::mod|^lib)$", "", "::".join(path.relative_to(src).with_suffix("").parts))
        text = path.read_text()
        for found in EXPORT.finditer(text):
            yield f"{module}::{found[1]}" if module else found[1], found[1], len(arguments_at(text, found.end()))


def shim_of(header, known):
    """A C function for each of the header, around the export of its name."""
    text = re.sub(r"/\*.*?\*/", "", header.read_text(), flags=re.DOTALL)
    text = re.sub(r"^\s*#.*(?:\\\n.*)*$", "", text, flags=re.MULTILINE)
    lines, wrapped = ['#include "mailrep.h"'], set()
    for result, name, listed in re.findall(r"^([a-z]\w*(?: \w+)*?[ *]+)(mr_\w+)\(([^;{]*?)\);", text, flags=re.MULTILINE):
        arguments = parts(listed.replace("\n", " "))
        arguments = [] if arguments == ["void"] else arguments
        taken, handed = [], []
        for it in arguments:
            word = it.split()[-1].lstrip("*")
            if re.fullmatch(r"mr_version \w+", it):
                taken += ["uint32_t", "uint32_t"]
                handed += [f"{word}.author", f"{word}.counter"]
            elif re.fullmatch(r"mr_(?!code)\w+ \w+", it):
                sys.exit(f"c_unproved: {name} takes a struct by value: {it}")
            else:
                taken.append(it)
                handed.append(word)
        back = "" if result.strip() == "void" else "return "
        lines.append(f"{result.strip()} raw_{name}({', '.join(taken) or 'void'});")
        lines.append(f"{result.strip()} {name}({', '.join(arguments) or 'void'}) {{ {back}raw_{name}({', '.join(handed)}); }}")
        wrapped.add(name)
    if wrapped != known:
        sys.exit(f"c_unproved: the header and mr_c differ in {sorted(wrapped ^ known)}")
    return "\n".join(lines) + "\n"


def main():
    src, header, shim, names = map(Path, sys.argv[1:])
    exports = list(exports_of(src))
    Path(shim).write_text(shim_of(header, {name for _, name, _ in exports}))
    calls = "".join(f"    let _ = {path}({', '.join(['any()'] * count)});\n" for path, _, count in exports)
    text = (src / "lib.rt").read_text() + MAIN % calls
    (src / "lib.rt").unlink()
    (src / "main.rt").write_text(text)
    commands = [f's#@"mr_c::{path}"#@raw_{name}#g; s#^define internal \\(.*@raw_{name}(\\)#define \\1#\n' for path, name, _ in exports]
    names.write_text("".join(commands) + "s/^define i32 @main()/define internal i32 @main()/\n")


main()
