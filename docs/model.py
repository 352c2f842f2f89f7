#!/usr/bin/env python3
"""Prints the lists of docs/MODEL.md from the comments in crates/*/specs.

python3 docs/model.py          writes docs/MODEL.md anew below its marker line
python3 docs/model.py --check  fails where docs/MODEL.md is not what would be written
"""
import pathlib
import re
import sys

ROOT = pathlib.Path(__file__).resolve().parent.parent
MODEL = ROOT / "docs" / "MODEL.md"
MARKER = "<!-- Below this line: python3 docs/model.py -->\n"
DEFINITION = re.compile(r"\s*(?:abbrev pub|unfoldable pub|pub record|pub data) (\S+)")


def crates():
    for line in (ROOT / "crates.txt").read_text().splitlines():
        if line and not line.startswith("#"):
            yield line.split(":")[0]


def comment_above(lines, place):
    found = []
    while place > 0 and lines[place - 1].strip().startswith("-- "):
        place -= 1
        found.insert(0, lines[place].strip()[3:])
    text = " ".join(found)
    return "" if text.startswith("----") or text.startswith("- ") else text


def described(path):
    lines = path.read_text().splitlines()
    head = []
    for line in lines:
        if not line.startswith("-- "):
            break
        head.append(line[3:])
    yield None, " ".join(head)
    for place, line in enumerate(lines):
        match = DEFINITION.match(line)
        if match:
            yield match.group(1), comment_above(lines, place)


def printed():
    for crate in crates():
        specs = ROOT / "crates" / crate / "specs"
        if not (specs / "Lib.antt").exists():
            continue
        yield f"\n## {crate}\n"
        for name in re.findall(r"pub mod (\S+)", (specs / "Lib.antt").read_text()):
            plain = []
            for definition, says in described(specs / f"{name}.antt"):
                if definition is None:
                    yield f"\n**{name}.** {says}\n\n"
                elif says:
                    yield f"- `{definition}`: {says}\n"
                else:
                    plain.append(f"`{definition}`")
            if plain:
                yield f"- By their names: {', '.join(plain)}\n"


def main():
    text = MODEL.read_text()
    wanted = text[: text.index(MARKER) + len(MARKER)] + "".join(printed())
    if "--check" in sys.argv:
        if text != wanted:
            sys.exit("docs/MODEL.md is not what docs/model.py writes")
    else:
        MODEL.write_text(wanted)


main()
