#!/usr/bin/env python3
"""Wrong bodies that the prover must refuse, beside those in crates/hub/must-fail, which `rt ci` tries.

    python3 checks/wrong_bodies.py CRATE..   tries those in checks/wrong_bodies/CRATE
    python3 checks/wrong_bodies.py CRATE/BODY..   tries these alone, which is no stamp for their crates
    python3 checks/wrong_bodies.py --due     tries those of each crate that has changed since they were refused
    python3 checks/wrong_bodies.py --check   says which crates are due, and which bodies can't be applied

Each has the form of a must-fail edit (`rt help`). Those of different functions are tried in one check, over a copy of
what `rt check` kept here. A body is refused where the prover refuses the function that it changes, at a goal of that
function; a function that is refused only as it calls another that is, is tried again without that one. One that is not
of a function is tried alone, and refused where its crate is. A file may be one of a crate below, `../NAME/..`: that
crate and those between have to be proved with it, and the crate is refused. Where all of a crate are refused for their
meaning, the crate gets a line in checks/wrong_bodies/refused.txt: its name, and a hash over its src, its specs, the
bodies, and the files of other crates that they change.
`--jobs N` is handed to `rt check`.
"""

import hashlib
import re
import shutil
import subprocess
import sys
import tempfile
from pathlib import Path

ROOT = Path(__file__).resolve().parent.parent
BODIES = ROOT / "checks" / "wrong_bodies"
STAMPS = BODIES / "refused.txt"
FUNCTION = re.compile(r"^\s*(?:pub(?:\([a-z]+\))? )?(?:const )?fn (\w+)")
ITEM = re.compile(r"^(?:pub(?:\([a-z]+\))? )?(?:const|struct|enum|trait|impl|use|static|type|mod|macro_rules!) ?")
VERDICT = re.compile(r"^fn \w+::(\S+): (no proof: expected answers|no proof|not proved)(.*)$", re.M)
# an error, with the lines that go on with it
ERROR = re.compile(r"^(?:\./)?(\S+?):\d+:\d+: error: (.*(?:\n  .*)*)$", re.M)
OF_NAMES = re.compile(r"has no field|is not in scope|has no `|was not admitted")
UNREAD = re.compile(r"is not in scope|has no field|is no name|operand is missing|expected the end|cannot continue")


def bodies_of(crate):
    return sorted((BODIES / crate).glob("*.edit"))


def crates():
    """The crates that have wrong bodies here."""
    return sorted({body.parent.name for body in BODIES.glob("*/*.edit")})


def stamp_of(crate):
    """The hash over a crate's src, its specs, its wrong bodies, and what these change in other crates."""
    home = ROOT / "crates" / crate
    files = [file for part in ("src", "specs") for file in (home / part).rglob("*") if file.is_file()]
    files += {(home / path).resolve() for path in paths_below(crate)}
    read = hashlib.sha256()
    for file in sorted(files) + bodies_of(crate):
        text = file.read_bytes()
        read.update(f"{file.relative_to(ROOT)} {len(text)}\n".encode() + text)
    return read.hexdigest()[:32]


def stamps():
    """The stamps that were written, by crate."""
    lines = STAMPS.read_text().splitlines() if STAMPS.is_file() else []
    return dict(line.split() for line in lines if line and not line.startswith("#"))


def write(kept):
    """Writes the stamps. The comment lines above them stay, which tell what was stamped without a try."""
    lines = STAMPS.read_text().splitlines(keepends=True) if STAMPS.is_file() else []
    head = [line for line in lines if line.startswith("#")]
    STAMPS.write_text("".join([*head, *(f"{crate} {stamp}\n" for crate, stamp in sorted(kept.items()))]))


def due():
    kept = stamps()
    return [crate for crate in crates() if kept.get(crate) != stamp_of(crate)]


def pairs_of(body):
    """The changes of a wrong body: a file of the crate, the text that stands in it, and the text in its place."""
    path, old = "", None
    for line in body.read_text().splitlines():
        word, _, rest = line.partition(": ")
        if word == "file":
            path = rest.strip()
        elif word == "old":
            old = rest
        elif word in ("new", "new:") and old is not None:
            yield path, old, rest


def paths_below(crate):
    """The files of crates below that the wrong bodies of a crate change."""
    return sorted({path for body in bodies_of(crate) for path, _, _ in pairs_of(body) if path.startswith("../")})


def faults(body):
    """Why a wrong body can't be applied to its crate."""
    crate, texts = ROOT / "crates" / body.parent.name, {}
    for path, old, new in pairs_of(body):
        file = crate / path
        text = texts.get(path) or (file.read_text() if file.is_file() else "")
        found = text.count(old)
        if found != 1:
            yield f"{body.relative_to(ROOT)}: its text stands {found} times in {path}: {old}"
        texts[path] = text.replace(old, new)


def check():
    told = [fault for body in sorted(BODIES.glob("*/*.edit")) for fault in faults(body)]
    told += [f"{crate}: its wrong bodies are due: python3 checks/wrong_bodies.py {crate}" for crate in due()]
    told += [f"{crate}: it has a stamp and no wrong bodies" for crate in stamps() if crate not in crates()]
    print("\n".join(told), end="\n" if told else "")
    return 1 if told else 0


def function_at(text, at):
    """The name of the function round a place of a file of src, if there is one."""
    for line in reversed(text[:at].splitlines() + [text[at:].partition("\n")[0]]):
        found = FUNCTION.match(line)
        if found or ITEM.match(line):
            return found and found[1]
    return None


def function_of(body):
    """The name of the function that a wrong body changes, if it is one function."""
    home, names = ROOT / "crates" / body.parent.name, set()
    for path, old, _ in pairs_of(body):
        text = (home / path).read_text()
        names.add(function_at(text, text.index(old)) if path.startswith("src/") and old in text else None)
    return names.pop() if len(names) == 1 else None


def lines_of(crate):
    """The lines of crates.txt for a crate and those below it, by their names."""
    lines = (ROOT / "crates.txt").read_text().splitlines()
    lines = {line.partition(":")[0].split()[0]: line for line in lines if not line.startswith("#") and line.strip()}
    found, left = {}, [crate]
    while left:
        name = left.pop()
        if name in lines and name not in found:
            found[name] = lines[name]
            left += lines[name].partition(":")[2].split()
    return found


class Copy:
    """A copy of a crate and of those below it, with what `rt check` kept of them."""

    def __init__(self, crate, room, jobs):
        self.home, self.real, self.jobs = Path(room) / "crates" / crate, ROOT / "crates" / crate, jobs
        lines = lines_of(crate)
        changed = {crate, *(path.split("/")[1] for path in paths_below(crate))}
        for name in lines:
            kept = ["out/rlib"] if name != crate else []
            kept += ["out/incremental"] if changed & set(lines_of(name)) else []
            for part in ("src", "specs", "proofs", *kept):
                if (ROOT / "crates" / name / part).is_dir():
                    shutil.copytree(ROOT / "crates" / name / part, Path(room) / "crates" / name / part)
        (Path(room) / "crates.txt").write_text("\n".join(lines.values()) + "\n")
        shutil.copy(ROOT / "HANDLES", room)

    def checked(self, bodies):
        """What a check of the crate says with these bodies. The copy is then as it was."""
        paths = set()
        for path, old, new in (pair for body in bodies for pair in pairs_of(body)):
            file = self.home / path
            file.write_text(file.read_text().replace(old, new, 1))
            paths.add(path)
        words = ["rt", "check", *(["--jobs", self.jobs] if self.jobs else [])]
        ran = subprocess.run(words, cwd=self.home, stdout=subprocess.PIPE, stderr=subprocess.STDOUT, text=True, errors="replace")
        for path in paths:
            shutil.copy(self.real / path, self.home / path)
        return ran.stdout


def errors_in(said):
    return [(file.removeprefix("./"), text) for file, text in ERROR.findall(said)]


def is_judged(crate, said):
    """Whether the prover has read all of the crate, and refused it."""
    firsts = [(file, text.split("\n")[0]) for file, text in errors_in(said)]
    unread = [text for file, text in firsts if file.startswith(("src/", "specs/")) and (not text.startswith("`") or UNREAD.search(re.sub(r"`[^`]*`", "", text)))]
    return f"\ncrate {crate}: modules loaded" in said and "\nlogic=not-proved" in said and not unread


def refused_at(said):
    """The names of the functions that were refused at a goal of their own."""
    found = set()
    for path, verdict, _ in VERDICT.findall(said):
        folder = "proofs/" + path.replace("::", "/") + "/"
        own = [text for file, text in errors_in(said) if file.startswith(folder)]
        if verdict == "no proof: expected answers" or any(not OF_NAMES.search(text) for text in own):
            found.add(path.split("::")[-1])
    return found


def is_refused_alone(crate, said):
    """Whether a crate is refused for more than names that a proof has and a wrong body has taken away."""
    errors = errors_in(said)
    of_names = errors and all(file.startswith("proofs/") and OF_NAMES.search(text) for file, text in errors)
    return is_judged(crate, said) and (not of_names or bool(refused_at(said)))


def round_of(left, blocked):
    """Bodies that are tried in one check: one for each name of a function, or one that is of none. First come those that
    the check before left open, since it proves no function that calls one that is refused."""
    chosen = {}
    for body in blocked or left:
        if left[body]:
            chosen.setdefault(left[body], body)
    return list(chosen.values()) or list(left)[:1]


def refused_of(crate, bodies, left, said):
    """Those of the bodies of one check that were refused."""
    if len(bodies) == 1:
        return bodies if is_refused_alone(crate, said) else []
    found = refused_at(said) if is_judged(crate, said) else set()
    return [body for body in bodies if left[body] in found]


def tries(crate, bodies, jobs):
    """Tries wrong bodies of a crate, and gives those that weren't refused for their meaning."""
    left, blocked, failed = {body: function_of(body) for body in bodies}, [], []
    with tempfile.TemporaryDirectory(prefix="wrong-bodies-") as room:
        copy = Copy(crate, room, jobs)
        while left:
            bodies = round_of(left, blocked)
            said = copy.checked(bodies)
            refused = refused_of(crate, bodies, left, said)
            for body in refused:
                print(f"{crate}/{body.name}: refused, in a check of {len(bodies)}", flush=True)
                del left[body]
            blocked = [body for body in bodies if body in left] if refused else []
            if not refused and len(bodies) == 1:
                print(f"{crate}/{bodies[0].name}: NOT REFUSED for its meaning\n{tail(said)}", flush=True)
                failed += bodies
                del left[bodies[0]]
            elif not refused:
                # each is tried alone
                left.update(dict.fromkeys(bodies))
    return failed


def try_alone(words, jobs):
    """Tries the bodies of these names."""
    chosen = [BODIES / f"{word}.edit" for word in words]
    if missing := [body for body in chosen if not body.is_file()]:
        sys.exit(f"no such wrong body: {', '.join(body.parent.name + '/' + body.stem for body in missing)}")
    failed = []
    for crate in dict.fromkeys(body.parent.name for body in chosen):
        failed += tries(crate, [body for body in chosen if body.parent.name == crate], jobs)
    print(f"{len(chosen) - len(failed)} passed, {len(failed)} failed", *(f"{body.parent.name}/{body.name}" for body in failed))
    return 1 if failed else 0


def tail(said):
    lines = [line for line in said.splitlines() if ": error: " in line or line.startswith(("fn ", "logic", "rt:")) and not line.endswith(": proved")]
    return "\n".join(f"    {line[:200]}" for line in lines[:12])


def main(words):
    if words == ["--check"]:
        return check()
    jobs = words.pop(words.index("--jobs") + 1) if "--jobs" in words else ""
    words = [word for word in words if word != "--jobs"]
    if not words:
        sys.exit(__doc__)
    if all("/" in word for word in words):
        return try_alone(words, jobs)
    names = due() if words == ["--due"] else words
    for name in names:
        if name not in crates():
            sys.exit(f"checks/wrong_bodies has nothing of {name}; it has {', '.join(crates())}")
    failed = []
    for name in names:
        before = stamp_of(name)
        left = tries(name, bodies_of(name), jobs)
        failed += [f"{name}/{body.name}" for body in left]
        is_kept = not left and before == stamp_of(name)
        write({**{crate: stamp for crate, stamp in stamps().items() if crate != name}, **({name: before} if is_kept else {})})
    of = sum(len(bodies_of(name)) for name in names)
    print(f"{of - len(failed)} passed, {len(failed)} failed", *failed)
    return 1 if failed else 0


if __name__ == "__main__":
    sys.exit(main(sys.argv[1:]))
