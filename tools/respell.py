#!/usr/bin/env python3
"""Brings the repository's own definitions, fields, constructors and lemmas to the spelling of today's Rattle.

usage: python3 tools/respell.py [--list]      at the top of a repository that port.py has turned; --list only prints the names

Words are in snake case, facts and types in camel case. In a lemma's name a dash stays where it joins two names that
are declared somewhere; any other dash becomes an underscore. Functions, clauses and fields of src/ keep their names,
and so do strings, comments, inputs and outputs. A second run changes nothing.
"""
import glob
import re
import sys

WORD = r"[^\s(){}.;,@\"«»\[\]\\|]+"
TOKEN = re.compile(r"--[^\n]*|//[^\n]*|\"(?:[^\"\\]|\\.)*\"|" + WORD)
DECL = re.compile(r"^(\s*)((?:(?:abbrev|unfoldable|pub)\s+)*)([^:(){}]+?)\s*:\s(.*)$")
BINDER = re.compile(r"[({]([^\s:(){}]+(?: [^\s:(){}]+)*) : ")
ALIAS = re.compile(r" as ([^\s,}]+)")
NAME = re.compile(r"[A-Za-z_][^\s(){}.;,@\"«»\[\]\\|]*")
# Facts in lower case, with the module that declares them: other modules have other things under these names.
FACTS = {"before": ("Before", "floats.specs.TotalOrder"), "level": ("Level", "floats.specs.TotalOrder")}
# Names that would fall together with another, or that read better whole.
BY_HAND = {
    "if-found": "IfFound",
    "Word-from": "WordFrom",
    "Next-item": "NextItem",
    "Laid-in": "laid_in",
    "And-at": "and_node_at",
    "Or-at": "or_node_at",
    "Not-at": "not_node_at",
}


def antt_files():
    return sorted(glob.glob("crates/*/specs/**/*.antt", recursive=True) + glob.glob("crates/*/proofs/**/*.antt", recursive=True))


def rattle_files():
    return sorted(glob.glob("crates/*/src/**/*.rt", recursive=True))


def read(path):
    with open(path, encoding="utf-8", newline="") as f:
        return f.read()


def declared():
    """Each own name with how it is declared: 'word' (a definition, field or constructor), 'lemma', or 'bound' (a variable, an alias)."""
    names, known = {}, set()
    for path in antt_files():
        answers = path.rsplit("/", 1)[1] in ("Answers.antt", "Invariants.antt", "Choices.antt", "Proof.antt")
        for line in read(path).split("\n"):
            if line.lstrip().startswith("--"):
                continue
            for inside in re.findall(r"^\s*(?:pub )?use [^{]*\{([^}]*)\}", line):
                known.update(w.strip().split(" as ")[-1] for w in inside.split(","))
            for name in ALIAS.findall(line) + [b for bs in BINDER.findall(line) for b in bs.split()]:
                names.setdefault(name, "bound")
            m = DECL.match(line)
            if not m or "goal." in m.group(4) or not all(NAME.fullmatch(n) for n in m.group(3).split()):
                continue
            indent, marks, some, _ = m.groups()
            word = "abbrev" in marks or "unfoldable" in marks or (bool(indent) and not answers) or "/specs/" in path
            for name in some.split():
                if names.get(name) != "word":
                    names[name] = "word" if word else "lemma"
                if "abbrev" in marks or "unfoldable" in marks or "/specs/" in path:
                    known.add(name)
    for path in rattle_files():
        for use in re.findall(r"ghost use [^;]*;", read(path)):
            for name in ALIAS.findall(use):
                names.setdefault(name, "bound")
    return names, known


def snake(name):
    if name[:1].islower():
        name = re.sub(r"(?<=[a-z0-9])[A-Z]", lambda m: "_" + m.group().lower(), name)
    return name.replace("-", "_").replace("′", "'").replace("·", "_")


def lemma(name, known):
    parts, out, joints = name.split("-"), [], []
    i = 0
    while i < len(parts):
        for j in range(len(parts), i, -1):
            whole = "-".join(parts[i:j])
            if whole in known or whole.replace("-", "_") in known:
                break
        else:
            j = i + 1
        out.append((snake("-".join(parts[i:j])), "-".join(parts[i:j]) in known or "_".join(parts[i:j]) in known))
        i = j
    text = out[0][0]
    for (_, left), (word, right) in zip(out, out[1:]):
        text += ("-" if left and right else "_") + word
    return text


def spellings():
    names, known = declared()
    new = {}
    for name, kind in names.items():
        if name in BY_HAND:
            new[name] = BY_HAND[name]
        elif "-" in name or "·" in name or "′" in name or re.search(r"^[a-z].*[a-z][A-Z]", name):
            new[name] = lemma(name, known) if kind == "lemma" else snake(name)
    return {k: v for k, v in new.items() if k != v}, names


def respell(text, new, facts, rust=False):
    def one(m):
        t = m.group()
        if t.startswith(("--", "//", '"')):
            return t
        before = text[: m.start()]
        if before.endswith("."):
            head = re.search(WORD + r"\.$", before)
            owner = head.group()[:-1] if head else ""
            # behind a dot stands a field, or a name of a module; a step of the code is neither
            if t not in FIELDS and not owner[:1].isupper():
                return t
        return facts.get(t, new.get(t, t))

    return TOKEN.sub(one, text)


def clauses(text):
    """The spans of antt in a source file: ghost imports, clauses and ghost members."""
    for m in re.finditer(r"ghost use [^;]*;|(?:requires|ensures|ghost)\*?(?: \w+)?:? \{", text):
        if m.group().endswith(";"):
            yield m.start(), m.end()
            continue
        depth, i = 1, m.end()
        while depth and i < len(text):
            depth += {"{": 1, "}": -1}.get(text[i], 0)
            i += 1
        yield m.end(), i - 1


def main():
    global FIELDS
    new, names = spellings()
    FIELDS = {k for k in new if names[k] == "word"}
    taken = {}
    for k in names:
        taken.setdefault(new.get(k, k), []).append(k)
    for k, olds in sorted(taken.items()):
        if len(olds) > 1:
            print("fall together:", k, olds, file=sys.stderr)
    if "--list" in sys.argv:
        for k, v in sorted(new.items()):
            print(k, v, names[k])
        return
    for path in antt_files():
        text = read(path)
        facts = {}
        for old, (fact, module) in FACTS.items():
            crate, _, name = module.split(".")
            if path == f"crates/{crate}/specs/{name}.antt" or re.search(r"Rattle\." + re.escape(module) + r"\.\{[^}]*\b" + old + r"\b[^}]*\}", text):
                facts[old] = fact
        done = respell(text, new, facts)
        if done != text:
            with open(path, "w", encoding="utf-8", newline="") as f:
                f.write(done)
    for path in rattle_files():
        text = read(path)
        done, at = "", 0
        for start, end in clauses(text):
            if start < at:
                continue
            done += text[at:start] + respell(text[start:end], new, {})
            at = end
        done += text[at:]
        if done != text:
            with open(path, "w", encoding="utf-8", newline="") as f:
                f.write(done)


main()
