#!/usr/bin/env python3
"""Counts the places of older forms in the src/ of every crate, as docs/DESIGN-PASS.md lists them.

    python3 tools/forms.py           the working tree
    python3 tools/forms.py COMMIT    the tree at a commit
    -v after either                  each place, and not only the counts
"""
import collections
import re
import subprocess
import sys

# each pattern is looked for in a file's text without its comments
PATTERNS = [
    ("1a", "a failure as the Some of an Option", r"Option<Refused>"),
    ("1b", "a failure handed on by hand", r"return Err\(e\)|Err\((\w+)\) => (?:return )?Err\(\1\)|=> (?:return )?refuse\(|return refuse\("),
    ("1c", "`?` or `map` written as a match", r"(?:None|Err\(_\)) => None,|None => Ok\(None\)|Ok\((\w+)\) => Ok\(\1\)|Some\((\w+)\) => Some\((?:\w|:)+\(\2\)\)"),
    ("1d", "numbers for kinds", r"Kind::\w+(?:\(_\))? => \d+,|Mark::\w+ => \d+,|number\(\) [<>] \d+"),
    ("1e", "a match that only says true or false", r"\{\s*(?:[^{}=]*=> (?:true|false),\s*)+\}"),
    ("1f", "enums to be read for the shape of Option or Result", r"^\s*(?:pub )?enum \w+"),
    ("2b", "the same arm for And and for Or", r"Node::And(\([^)]*\)) => (\{(?:(?!Node::)[\s\S])*?\}|[^\n{]*?),?\n\s*Node::Or\1 => \2"),
    ("3", "an index or a count kept by hand", r"for \w+ in \w+\.\.|while [^{]*?<|= \w+\.saturating_add\(1\)"),
    ("4", "a struct written again for one field", r"slots\[i\] = Slot \{"),
    ("5a", "fields and text, passed beside each other", r"fields: &\[Field\],\s*(?:text: &|field|i: |places|case)"),
    ("5b", "a line and a place in it", r"line: &\[u8\],\s*(?:from|span|word): "),
    ("5c", "the book's tables, one by one", r"slots: &(?:mut )?\[Slot<T>\],\s*(?:used|at|n|a|connective|literals)\b"),
    ("5d", "a literal and its text", r"a: (?:Value|&Literal), a_text"),
    ("6", "a buffer or a table with a length beside it", r"pub (?:used|stored|top): usize|count: usize,\s*pub\(crate\) kind|\[0\w*; (?:MAX_FIELDS|LIMIT|256|MAX_PLACES)\]"),
    ("7", "a switch on which step to run", r"match self \{\s*Demand::|else if spells\(first"),
]


def sources(commit):
    """The path and text of each source file."""
    if commit:
        names = subprocess.run(["git", "ls-tree", "-r", "--name-only", commit, "crates"], capture_output=True, text=True, check=True).stdout.split("\n")
    else:
        names = subprocess.run(["git", "ls-files", "crates"], capture_output=True, text=True, check=True).stdout.split("\n")
    for name in sorted(n for n in names if "/src/" in n and n.endswith(".rt")):
        if commit:
            text = subprocess.run(["git", "show", f"{commit}:{name}"], capture_output=True, text=True, check=True).stdout
        else:
            text = open(name, encoding="utf-8").read()
        # a comment keeps its line's place
        yield name, re.sub(r"//.*", "", text)


def functions(text):
    """Each function's name, line and body; clauses stand between the signature and the body."""
    for found in re.finditer(r"\bfn (\w+)", text):
        at, start = found.start(), None
        for line in text[found.start():].split("\n"):
            words = line.strip()
            if words.endswith("{") and not words.startswith(("ensures", "requires")) or words == "{}":
                start = at + line.rfind("{")
                break
            if words.endswith(";"):
                break
            at += len(line) + 1
        if start is None:
            continue
        depth = 0
        for end in range(start, len(text)):
            depth += {"{": 1, "}": -1}.get(text[end], 0)
            if depth == 0:
                yield found.group(1), text.count("\n", 0, found.start()) + 1, text[start:end + 1]
                break


def shape(body):
    """A body with names, types and constants blanked."""
    body = re.sub(r'b?"[^"]*"', "S", body)
    body = re.sub(r"::<[^>]*>", "", body)
    body = re.sub(r"\b\d+\b", "0", body)
    body = re.sub(r"\b[A-Z]\w*(?:::\w+)*", "T", body)
    body = re.sub(r"\b[a-z_]\w*", "v", body)
    return re.sub(r"\s+", "", body)


def main():
    words = [w for w in sys.argv[1:] if w != "-v"]
    verbose = "-v" in sys.argv
    files = list(sources(words[0] if words else None))
    for key, title, pattern in PATTERNS:
        places = [f"{name}:{text.count(chr(10), 0, m.start()) + 1}" for name, text in files for m in re.finditer(pattern, text, re.M)]
        print(f"{key:3} {len(places):3}  {title}")
        if verbose:
            for place in places:
                print(f"          {place}")
    shapes = collections.defaultdict(list)
    for name, text in files:
        for function, line, body in functions(text):
            if len(shape(body)) > 15:
                shapes[shape(body)].append(f"{name}:{line} {function}")
    twins = [places for places in shapes.values() if len(places) > 1]
    print(f"2a  {sum(map(len, twins)):3}  functions whose bodies differ only in names, types and constants, in {len(twins)} groups")
    if verbose:
        for places in twins:
            print("          " + ", ".join(places))


main()
