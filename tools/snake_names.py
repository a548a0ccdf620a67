#!/usr/bin/env python3
"""Spells the definitions and lemmas of this repository as today's Rattle does: words in snake case, a dash only between two names.

usage: snake_names.py FOLDER     (the top of a checkout in which the toolchain's port.py ran)

`rackOf-base` becomes `rack_of-base`, since rackOf and base are names; `target-is` becomes `target_is`, since `is` is a plain word. A name that would
fall together with another that stands in the same files keeps its dash, and is shown. Types, modules, Rust's names, and the names that a proof of one function
gives its goals stay. Besides, the word S-as-B of comments is S·B again, and
specs/Contracts of one crate is specs/Promises, since Rattle makes a module of the old name. It is to run once.
"""
import collections
import glob
import os
import re
import sys

WORD = re.compile(r'[^\s(){}.;,@"«»]+')
DEFINED = re.compile(r"^ *(?:unfoldable |abbrev |pub |record |data |infix[lr]? )*([^\s(){}.;,:]+)(?: \{[^{}]*\})* :(?= |$)", re.M)
SPAN = re.compile(r"`[^`\n]+`")
GHOST = re.compile(r"ghost\s+use\b[^;]*;|(?:requires|ensures)\*?\s*(?:\w+\s*)?\{.*?\}(?=\s*(?:\{|$|requires|ensures))", re.S)
# lemmas that port.py gave the spelling that their definition gets here
BESIDE = {"free_on", "asked_by", "moved_by", "one_more"}
# the test of the loop, since a field of the theorem about it has its name
NAMED = {"goesOn": "loop_goes_on"}
# words of std with which lemmas of this repository are named
STD = set("length append take drop get set min max suc zero map replicate add sub mul cons nil".split())
# names that the toolchain gives what stands in a proof of one function
MADE = re.compile(r".*-(requires|[0-9]+|copy-out-.*|result|aggregate-.*)$")


def snake(part):
    if not re.match(r"[a-z]", part):
        return part
    return re.sub(r"(?<=[a-z0-9])([A-Z])", lambda m: "_" + m[1].lower(), part)


def respelled(name, names):
    parts = name.split("-")
    new = snake(parts[0])
    for part in parts[1:]:
        new += ("-" if part in names or part in STD or not re.match(r"[a-zA-Z]", part) else "_") + snake(part)
    return new


def main(top):
    os.chdir(top)
    old = "crates/seineflute/specs/Contracts.antt"
    if os.path.exists(old):
        os.rename(old, old.replace("Contracts", "Promises"))
    antt = sorted(f for f in glob.glob("crates/*/specs/**/*.antt", recursive=True) + glob.glob("crates/*/proofs/**/*.antt", recursive=True))
    rt = sorted(glob.glob("crates/*/src/**/*.rt", recursive=True))
    pages = sorted(glob.glob("*.md") + glob.glob("docs/*.md"))
    texts = {f: open(f, encoding="utf-8").read() for f in antt + rt + pages}
    words = {f: set(WORD.findall(t)) for f, t in texts.items()}
    edits = {os.path.basename(f)[:-5] for f in glob.glob("crates/*/must-fail/*.edit")}
    walks = {f for f in antt if f.endswith("/Proof.antt")}
    defined = {f: set(DEFINED.findall(texts[f])) for f in antt}
    names = set().union(*(defined[f] for f in antt if f not in walks))
    table = {}
    for name in sorted(names):
        new = respelled(name, names)
        if new != name:
            table[name] = new
    table.update(NAMED)
    # what stands nowhere as a definition of its own: variables
    for f in antt:
        for word in words[f]:
            if word not in table and "-" not in word and re.fullmatch(r"[a-z][a-z0-9]*[A-Z]\w*'*", word):
                table[word] = snake(word)
    # a name is another's already: the lemma gets _lem, as std has it
    variables = {w for w in table if w not in names}
    met = collections.defaultdict(set)
    for old in names | variables:
        met[table.get(old, old)].add(old)
    for new, olds in sorted(met.items()):
        lemmas = [old for old in olds if "-" in old or old in BESIDE]
        if len(olds) > 1 and len(olds) - len(lemmas) < 2:
            for old in lemmas if len(lemmas) < len(olds) else sorted(lemmas)[1:]:
                table[old] = new + "_lem"
                print("another's name:", old, table[old])
        elif len(olds) > 1:
            print("FALL TOGETHER:", sorted(olds))

    def turn(text):
        return WORD.sub(lambda m: table.get(m[0], m[0]), text)

    def spans(text):
        return SPAN.sub(lambda m: turn(m[0][1:-1]).join("``"), text)

    for f, text in texts.items():
        text = text.replace("S-as-B", "S·B").replace("seineflute.specs.Contracts", "seineflute.specs.Promises")
        if f == "crates/seineflute/specs/Lib.antt":
            text = text.replace("pub mod Contracts", "pub mod Promises")
        if f in walks:
            # the answers of a function's goals keep the names that the toolchain gave the goals
            local = {w for w in defined[f] if "-" in w}
            spec = os.path.basename(os.path.dirname(f)).lstrip("+") + "_spec"
            keep = {w: table.pop(w) for w in local if w in table}
            new = turn(text)
            table.update(keep)
            lines = DEFINED.findall(text)
            if lines and re.search(r"[-_]spec$", lines[-1]):
                new = WORD.sub(lambda m: spec if m[0] == lines[-1] else m[0], new)
        elif f in rt:
            new = "\n".join(turn(line) if not line.lstrip().startswith("//") else spans(line) for line in text.split("\n"))
        elif f in pages:
            keep = {w: table.pop(w) for w in edits | BESIDE if w in table}
            new = spans(text)
            table.update(keep)
        else:
            new = "\n".join((turn(line[: len(line) - len(c)]) + spans(c)) for line in text.split("\n") for c in [comment_of(line)])
        if new != texts[f]:
            with open(f, "w", encoding="utf-8") as out:
                out.write(new)
    for old, new in sorted(table.items()):
        print(old, new, sep="\t")


def comment_of(line):
    m = re.search(r"(?:^|\s)--(?:\s|$).*", line)
    return m[0] if m else ""


if __name__ == "__main__":
    main(sys.argv[1])
