#!/usr/bin/env python3
"""Makes stand-ins of crates in a copy of the repository: each has the contracts that other crates see, and no bodies.

    bench/standins.py COPY CRATE..
    cd COPY/crates/CRATE && RT_ALLOW_C=1 rt lib

A crate above is then checked over libraries that take a fifth of the time, before the real ones are proved, as
`cd COPY/crates/ABOVE && RT_ALLOW_C=1 rt check`; its proofs stand unchanged over the real ones. Each body becomes a call
of a C function that never comes back, which `reg_absurd` declares: so nothing of COPY may be committed. Functions that no
other crate sees go, with their imports. Lemma files stay where another crate cites them; all other proofs of these crates
go. Builds within one copy wait for each other: two crates are built side by side in two copies, of which each has links to
the folders `out/rlib` of what is below.
"""
import os
import re
import sys

BODY = "{ let _ = reg_absurd::reg_absurd(); unreachable!() }"
ABSURD = """//! A call that never comes back.
#![tactic(auto)]

unsafe extern "C" {
    /// Never comes back.
    pub safe fn reg_absurd() -> bool
        ensures { ⊥ };
}
"""
CHARACTER = re.compile(r"'(\\x[0-9a-fA-F]{2}|\\u\{[0-9a-fA-F]+\}|\\.|[^\\'])'")
CLAUSE = re.compile(r"\b(requires|ensures)\*?(\s+\w+)?\s*$")
GHOST = re.compile(r"ghost\s+\w+\s*=\s*\{")
TACTIC = re.compile(r"#\[tactic\((?:[^\[\]]|\[[^\]]*\])*?\)\]\s*\n")
CITED = re.compile(r"Rattle\.(\w+)\.proofs\.([\w.]+)")
USING = re.compile(r"\b(reg_\w+)::proofs::([\w:]+)")
IMPORT = re.compile(r"(?m)^[ ]*(?:pub(?:\([a-z]+\))? )?use (?:crate|super)\b[^;]*;\n")
DEFINED = re.compile(r"\b(?:fn|struct|enum|trait|const|static|type)\s+(\w+)")
OF_A_FUNCTION = ("Answers", "Invariants", "Proof", "Given", "Goals")


def after_text(code, at):
    """The end of the comment, string or character that begins here; or the place itself."""
    if code.startswith("//", at):
        end = code.find("\n", at)
        return len(code) if end < 0 else end
    if code[at] == '"':
        end = at + 1
        while code[end] != '"':
            end += 2 if code[end] == "\\" else 1
        return end + 1
    found = CHARACTER.match(code, at) if code[at] == "'" else None
    return found.end() if found else at


def after_group(code, at):
    """The end of the group of brackets that begins here."""
    depth = 0
    while True:
        end = after_text(code, at)
        if end != at:
            at = end
            continue
        depth += (code[at] in "([{") - (code[at] in ")]}")
        at += 1
        if depth == 0:
            return at


def after_clause(code, at):
    """The end of the clause that begins here. Its quotes are parts of names."""
    depth = 0
    while True:
        if code.startswith("//", at) or code.startswith("-- ", at):
            at = code.find("\n", at)
        depth += (code[at] == "{") - (code[at] == "}")
        at += 1
        if depth == 0 and code[at - 1] == "}":
            return at


def body_of(code, at):
    """The begin and the end of the body of the function whose name ends here; None where it has none."""
    last = at
    while True:
        end = after_text(code, at)
        if end != at:
            at = end
        elif code[at] == ";":
            return None
        elif code[at] in "([":
            at = after_group(code, at)
        elif code[at] != "{":
            at += 1
        elif CLAUSE.search(code, last, at):
            at = last = after_clause(code, at)
        else:
            return at, after_group(code, at)


def next_function(code, at):
    """The end of the name of the next function; None where there is none."""
    while at < len(code):
        end = after_text(code, at)
        if end != at:
            at = end
        elif GHOST.match(code, at):
            at = after_clause(code, code.index("{", at))
        elif code.startswith("fn ", at) and not (code[at - 1].isalnum() or code[at - 1] == "_"):
            return re.compile(r"fn\s+\w+").match(code, at).end()
        else:
            at += 1
    return None


def is_seen(code, at):
    """Whether another crate sees the function whose name ends here: a public one, or one of a trait."""
    begin = code.rindex("\n", 0, at) + 1
    if code.startswith("pub ", begin + len(code[begin:at]) - len(code[begin:at].lstrip())):
        return True
    if not code[begin].isspace():
        return False
    heads = [it.start() for it in re.finditer(r"(?m)^(?:impl|pub trait|trait|pub\(crate\) trait)\b", code[:begin])]
    head = code[heads[-1] : code.index("{", heads[-1])]
    return not head.startswith("impl") or " for " in head


def before_comment(code, at):
    """The begin of the comments and attributes that stand on the lines above."""
    while at > 0:
        begin = code.rfind("\n", 0, at - 1) + 1
        if not re.match(r"\s*(//[^!]|#\[)", code[begin:at]):
            break
        at = begin
    return at


def without_bodies(code):
    pieces, at = [], 0
    while (name := next_function(code, at)) is not None:
        body = body_of(code, name)
        if body is None:
            pieces, at = [*pieces, code[at:name]], name
        elif is_seen(code, name):
            pieces, at = [*pieces, code[at : body[0]], BODY], body[1]
        else:
            pieces, at = [*pieces, code[at : before_comment(code, code.rindex("\n", 0, name) + 1)]], body[1]
    return TACTIC.sub("", "".join([*pieces, code[at:]]))


def without_imports(code, gone):
    """The code without imports of functions that have gone."""

    def left(found):
        text = found[0]
        group = re.search(r"\{([^{}]*)\}", text)
        names = [it.strip() for it in group[1].split(",") if it.strip()] if group else [text[:-2].split("::")[-1].strip()]
        kept = [it for it in names if it.split(" as ")[0] not in gone]
        if len(kept) == len(names):
            return text
        return text[: group.start()] + "{" + ", ".join(kept) + "}" + text[group.end() :] if group and kept else ""

    return IMPORT.sub(left, code)


def texts(folder, *endings):
    for place, _, files in os.walk(folder):
        if f"{os.sep}out" not in place:
            yield from (os.path.join(place, it) for it in files if it.endswith(endings))


def read(path):
    with open(path, encoding="utf-8") as it:
        return it.read()


def write(path, text):
    os.makedirs(os.path.dirname(path), exist_ok=True)
    with open(path, "w", encoding="utf-8") as it:
        it.write(text)


def cited_of(top, crate):
    """The lemma files of a crate that others cite, and those that these cite."""
    folder = f"{top}/crates/{crate}/proofs"
    files = {os.path.relpath(it, folder)[:-5].replace(os.sep, "."): it for it in texts(folder, ".antt")}
    others = [it for it in os.listdir(f"{top}/crates") if it != crate]
    left = [module.replace("::", ".") for other in others for path in texts(f"{top}/crates/{other}", ".antt", ".rt")
            for cited in (CITED, USING) for name, module in cited.findall(read(path)) if name == crate]
    kept = set()
    while left:
        parts = left.pop().split(".")
        module = next((m for n in range(len(parts), 0, -1) if (m := ".".join(parts[:n])) in files), None)
        if module and module not in kept and module.split(".")[-1] not in OF_A_FUNCTION:
            kept.add(module)
            left += [m for name, m in CITED.findall(read(files[module])) if name == crate]
    return files, kept - {"Lib"}


def stand_in(top, crate):
    files, kept = cited_of(top, crate)
    for module, path in files.items():
        if module != "Lib" and module not in kept:
            os.remove(path)
    if "Lib" in files:
        fronts = {it.split(".")[0] for it in kept}
        lines = read(files["Lib"]).split("\n")
        said = [re.match(r"\s*(?:pub )?mod (\w+)", it) for it in lines]
        write(files["Lib"], "\n".join(it for it, m in zip(lines, said) if not m or m[1] in fronts))
    sources = {path: read(path) for path in texts(f"{top}/crates/{crate}/src", ".rt")}
    stripped = {path: without_bodies(code) for path, code in sources.items()}
    gone = set(DEFINED.findall("".join(sources.values()))) - set(DEFINED.findall("".join(stripped.values())))
    for path, code in stripped.items():
        write(path, without_imports(code, gone))


def main(top, *crates):
    if os.path.samefile(top, os.path.join(os.path.dirname(__file__), "..")):
        sys.exit("standins.py: name a copy of the repository, since its crates lose their bodies")
    for crate in crates:
        stand_in(top, crate)
    lines = read(f"{top}/crates.txt").split("\n")
    for number, line in enumerate(lines):
        name, _, used = line.partition(":")
        if name in crates and "reg_absurd" not in used:
            lines[number] = f"{name}: reg_absurd{used}"
    if not any(it.startswith("reg_absurd:") for it in lines):
        lines.insert(0, "reg_absurd:")
    write(f"{top}/crates.txt", "\n".join(lines))
    write(f"{top}/crates/reg_absurd/src/lib.rt", ABSURD)
    write(f"{top}/crates/reg_absurd/c/absurd.c", "int reg_absurd(void) { for (;;) ; }\n")


if __name__ == "__main__":
    if len(sys.argv) < 3:
        sys.exit("usage: bench/standins.py COPY CRATE..")
    main(*sys.argv[1:])
