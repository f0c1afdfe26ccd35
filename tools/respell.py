#!/usr/bin/env python3
"""Brings this repository's own definitions, lemmas and fields to today's spelling: words in snake case, types as they are.

usage: tools/respell.py [--list]

Run once, at the top, after the kit's port.py and before any edit by hand. `hasNext` becomes `has_next`, `hand-out-says` becomes
`hand_out_says`. Names of src/, exported names, strings, inputs and outputs stay, and so do names that begin with a capital letter. Comments and
documents are turned between backticks alone. --list prints what it would rename, and which new names are in use already, and writes nothing.
"""

import glob
import re
import sys

WORD = r"[^\s(){}.;,@\"«»\[\]\\`]+"
TOKEN = re.compile(r"--[^\n]*|\"(?:[^\"\\]|\\.)*\"|" + WORD)
RUST = re.compile(r"//[^\n]*|\"(?:[^\"\\]|\\.)*\"|[A-Za-z_][\w']*")
TICKED = re.compile(r"`[^`\n]*`")
NAME = re.compile(r"^ *(?:(?:unfoldable|abbrev) )*(?:pub )?([^\s(){}.;,@\"«»\[\]\\:=]+)(?: [({].*)? :(?: |$)")
USED = re.compile(r"^use (\S+)\.\{([^}]*)\}", re.M)
# Names that fall together with another one: what they are called.
APART = {
    "most-cores": "cores_most",
    "most-tasks": "tasks_most",
    "some-cores": "one_core",
    "some-copies": "one_copy",
    "no-plan": "without_plan",
    "best-plan": "with_best",
    "keeps-rules": "rules_kept",
    "first-cores": "cores_first",
}
APART.update(
    (name, name.replace("-", "_") + "_lem")
    for name in (
        "answer-on best-answer cost-count count-of due-task execution-at fault-of fewest-cores fewest-from head-cores internal-at laws-meet "
        "modules-from plan-bottleneck plan-bytes refused-line start-from"
    ).split()
)
# Lemmas that have the new name of a definition, each in its file.
LOCAL = {
    "crates/slack/proofs/Slack.antt": {"goes_on": "goes_on_lem"},
    "crates/walk/proofs/Laying.antt": {"room_after": "room_after_lem"},
}


def read(path):
    with open(path, encoding="utf-8") as file:
        return file.read()


def texts(end):
    return sorted(path for part in ("specs", "proofs") for path in glob.glob(f"crates/*/{part}/**/*{end}", recursive=True))


def sources():
    return sorted(glob.glob("crates/*/src/**/*.rt", recursive=True))


def own_names():
    """The names that this repository declares or gives where it imports, but for those of goals and of proofs, which Rattle makes."""
    found, brought = set(), set()
    for path in sources():
        found.update(re.findall(r"\bas ([a-z]+[A-Z]\w*)", read(path)))
    for path in texts(".antt"):
        text = read(path)
        for line in text.split("\n"):
            named = NAME.match(line)
            if named and not path.endswith("Proof.antt"):
                found.add(named.group(1))
        for module, names in USED.findall(text):
            if not re.match(r"Rattle\.(?!std\b)", module):
                brought.update(name.strip().split(" as ")[0] for name in names.split(","))
    return found - {"let", "in"}, brought


def snake(name):
    name = name.replace("getD", "get_or")
    return APART.get(name) or re.sub(r"(?<=[a-z0-9])[A-Z]", lambda it: "_" + it.group().lower(), name).replace("-", "_")


def renames():
    found, brought = own_names()
    out = {}
    for name in sorted(found):
        if name[0].islower() and "→" not in name and name not in brought and snake(name) != name:
            out[name] = snake(name)
    return out


def ticked(text, to):
    return TICKED.sub(lambda it: re.sub(WORD, lambda w: to.get(w.group(), w.group()), it.group()), text)


def turned(text, token, to):
    def one(it):
        word = it.group()
        if word.startswith(("--", "//")):
            return ticked(word, to)
        new = word if word.startswith('"') else to.get(word, word)
        # Behind a dot stands a field or a step of the code, and no lemma.
        return word.replace("-", "_") if new.endswith("_lem") and text[it.start() - 1] == "." else new

    return token.sub(one, text)


def clashes(to):
    """The new names that a file which has the old one has already."""
    for path in texts(".antt") + sources():
        token = TOKEN if path.endswith(".antt") else RUST
        words = set(token.findall(read(path)))
        for old, new in to.items():
            if old in words and new in words:
                yield path, old, new


def main(argv):
    if argv not in ([], ["--list"]):
        sys.exit("usage: tools/respell.py [--list]")
    to = renames()
    if argv == ["--list"]:
        for old, new in to.items():
            print(old, new)
        for new in sorted(set(to.values())):
            same = [old for old in to if to[old] == new]
            if len(same) > 1:
                print("together:", new, *same)
        for path, old, new in clashes(to):
            print("in use:", path, old, new)
        return
    paths = [(path, TOKEN) for path in texts(".antt")]
    paths += [(path, RUST) for path in sources()]
    turn = [(path, turned(read(path), token, {**to, **LOCAL.get(path, {})})) for path, token in paths]
    turn += [(path, ticked(read(path), to)) for path in sorted(glob.glob("*.md") + glob.glob("docs/**/*.md", recursive=True))]
    for path, text in turn:
        if text != read(path):
            with open(path, "w", encoding="utf-8") as file:
                file.write(text)


main(sys.argv[1:])
