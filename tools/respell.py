#!/usr/bin/env python3
"""Brings the names of this repository's own definitions and lemmas to the spelling of today's Rattle.

usage: python3 tools/respell.py [FOLDER]     once, at the top of the repository, right after the kit's port.py

Words are in snake case. A definition `wordCount` becomes `word_count`, a lemma `word-count-zero` becomes
`word_count_zero`. Types, modules, functions of src/ and strings keep their names. Where two names fall together, the
lemma takes `_lem`, an entry point of the demands `_call`, and a message of a call the names in BY_HAND. Must-fail
edits and the pages are turned along. It also gives each plain struct and enum `#[derive(Clone, Copy)]`, since the older
language copied them without a word.
"""
import collections
import glob
import os
import re
import subprocess
import sys

TOKEN = re.compile(r"[^\s(){}\[\].,;\"`]+")
BY_HAND = {
    "fromBytes": "bytes_message", "fromValue": "value_message", "fromLong": "long_message",
    "performBytes": "bytes_performed", "performValue": "value_performed", "performLong": "long_performed",
    "ones_below": "ones_below_lem", "run-from": "run_from_call", "entry-at": "entry_at_call",
}
DECLARED = [
    re.compile(r"^\s*(?:(?:abbrev|unfoldable|pub) )*([^\s(){}.,;:\"]+) :(?: |$)"),
    re.compile(r"^\s*(?:(?:abbrev|pub) )*(?:data|record) ([^\s(){}.,;:\"]+)"),
]


def snake(name):
    if re.match(r"[a-z]", name):
        name = re.sub(r"(?<=[a-z0-9₀])([A-Z])", lambda m: "_" + m.group(1).lower(), name)
    return name.replace("-", "_")


def proof_texts():
    found = glob.glob("crates/*/specs/**/*.antt", recursive=True) + glob.glob("crates/*/proofs/**/*.antt", recursive=True)
    return sorted(found)


def declared(files):
    names = collections.defaultdict(set)
    for path in files:
        if path.endswith("/Proof.antt"):
            continue
        for line in open(path, encoding="utf-8"):
            for form in DECLARED:
                found = form.match(line)
                if found:
                    names[found.group(1)].add(path)
    return names


def new_names(names):
    renamed = {}
    for name in names:
        if "◌" in name or name.startswith("-"):
            continue
        if snake(name) != name:
            renamed[name] = snake(name)
    groups = collections.defaultdict(list)
    for name in list(renamed) + [n for n in names if n not in renamed]:
        groups[renamed.get(name, name)].append(name)
    for new, group in groups.items():
        if len(group) < 2:
            continue
        for name in group:
            if "-" in name:
                calls = any(p.startswith("crates/demands/specs") for p in names[name])
                renamed[name] = new + ("_call" if calls else "_lem")
    renamed.update(BY_HAND)
    return renamed


# Names that a file brings from a library of the logic keep the library's spelling.
def foreign(text, own):
    kept = set()
    for found in re.finditer(r"^(?:pub )?use ([^\s{]+?)\.\{([^}]*)\}", text, re.M):
        module = found.group(1).split(".")
        if module[0] != "Rattle" or module[1] not in own:
            kept |= {w.strip() for w in found.group(2).split(",")}
    return kept


def turned(text, renamed, kept=()):
    return TOKEN.sub(lambda m: renamed.get(m.group(0), m.group(0)) if m.group(0) not in kept else m.group(0), text)


def code_turned(text, renamed):
    camel = {k: v for k, v in renamed.items() if re.match(r"[a-z]+\w*[A-Z]", k)}
    lines = []
    for line in text.split("\n"):
        ghost = re.match(r"\s*(ghost use|requires|ensures)\b", line) or re.search(r"[≡×⊎→λ]", line)
        lines.append(turned(line, renamed if ghost and not line.lstrip().startswith("//") else camel))
    return "\n".join(lines)


def derived(text):
    def with_copy(found):
        body = text[found.end():]
        if "&mut" in body[: body.find("}")]:
            return found.group(0)
        return "#[derive(Clone, Copy)]\n" + (found.group(1) or "") + found.group(2)

    return re.sub(r"(?m)^(?:#\[derive\(Drop\)\]\n)?(pub )?((?:struct|enum) \w+)", with_copy, text)


def with_tactic(text):
    if "#![tactic(auto)]" in text:
        return text
    lines = text.split("\n")
    at = next((i for i, l in enumerate(lines) if l and not l.startswith("//")), None)
    if at is None:
        return text.rstrip("\n") + "\n\n#![tactic(auto)]\n"
    return "\n".join(lines[:at] + ([] if at == 0 or lines[at - 1] == "" else [""]) + ["#![tactic(auto)]", ""] + lines[at:])


# A page also has names that port.py turned in the crates alone.
def page_turned(text, renamed, names):
    now = set(names) | set(renamed.values())

    def word(found):
        name = found.group(0)
        if name in renamed:
            return renamed[name]
        return snake(name) if re.match(r"[a-z]\w*[A-Z]", name) and snake(name) in now else name

    return re.sub(r"`([^`\n]+)`", lambda m: "`" + TOKEN.sub(word, m.group(1)) + "`", text)


def edit_turned(text, renamed):
    lines = []
    for line in text.split("\n"):
        found = re.match(r"(old|new): ?(.*)", line)
        if found:
            line = found.group(1) + ": " + turned(found.group(2), renamed)
        lines.append(line)
    return "\n".join(lines)


def rewrite(path, new):
    with open(path, encoding="utf-8") as f:
        old = f.read()
    text = new(old)
    if text != old:
        with open(path, "w", encoding="utf-8") as f:
            f.write(text)
        return 1
    return 0


def main():
    if len(sys.argv) > 1:
        os.chdir(sys.argv[1])
    files = proof_texts()
    names = declared(files)
    renamed = new_names(names)
    own = {c for c in os.listdir("crates")}
    values = collections.defaultdict(list)
    for name, new in renamed.items():
        values[new].append(name)
    for new, olds in sorted(values.items()):
        if len(olds) > 1 or (new in names and new not in renamed):
            print("falls together:", new, olds)
    changed = 0
    for path in files:
        changed += rewrite(path, lambda t: turned(t, renamed, foreign(t, own)))
    for path in glob.glob("crates/*/src/**/*.rt", recursive=True):
        changed += rewrite(path, lambda t: derived(code_turned(t, renamed)))
    for path in glob.glob("crates/*/src/lib.rt") + glob.glob("crates/*/src/main.rt"):
        changed += rewrite(path, with_tactic)
    for path in glob.glob("crates/*/must-fail/*.edit"):
        changed += rewrite(path, lambda t: edit_turned(t, renamed))
    for path in ["README.md"] + glob.glob("docs/**/*.md", recursive=True):
        changed += rewrite(path, lambda t: page_turned(t, renamed, names))
    for crate in sorted(own):
        subprocess.run(["rt", "fmt"], cwd=os.path.join("crates", crate), stdout=subprocess.DEVNULL, check=False)
    print(f"{len(renamed)} names, {changed} files")


if __name__ == "__main__":
    main()
