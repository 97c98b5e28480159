#!/usr/bin/env python3
"""Brings the repository's own definitions and lemmas to snake case: fileAfter to file_after, merge-means to
merge_means. To be run once, at the top of the repository, after the kit's port.py has turned the rest.

Names that Rust code declares keep their spelling, and so do types, modules and what stands in strings. A lemma whose
new name stands for something else in a file that names it, mostly a definition, gets _lem; each such name is printed."""
import collections
import glob
import re
import sys

# A name: what stands between blanks, brackets, commas and the like. A dot parts a path.
NAME = re.compile(r"[^\s(){}\[\],;:.`\"|]+")
HEAD = re.compile(r"^(\s*)((?:(?:pub|abbrev|unfoldable|data|record|ruleset)\s+)*)([^\s(){}\[\],;:.`\"|]+)\s*((?:[({][^)}]*[)}]\s*)*):(?!:)", re.M)


def snake(name):
    """file_after of fileAfter, with_HLEN of withHLEN, file_long of file-long."""
    name = re.sub(r"(?<=[a-z0-9])-(?=[A-Za-z0-9])", "_", name)
    return re.sub(r"([a-z0-9])([A-Z])(?=[a-z]|$)", lambda m: m[1] + "_" + m[2].lower(),
                  re.sub(r"([a-z0-9])([A-Z]{2,})", r"\1_\2", name))


def files(*patterns):
    return sorted(f for p in patterns for f in glob.glob(p, recursive=True) if "/out/" not in f)


def lemma_files():
    """specs/ and the lemma files of proofs/; the proof of a function has names that Rattle makes."""
    return files("crates/*/specs/**/*.antt") + [
        f for f in files("crates/*/proofs/**/*.antt") if f.rsplit("/", 1)[1] not in ("Proof.antt",)]


def own_names():
    found, fields = set(), set()
    for f in lemma_files():
        text = open(f, encoding="utf-8").read()
        for m in HEAD.finditer(text):
            name = m[3]
            if not re.match(r"[a-z]", name) or snake(name) == name:
                continue
            found.add(name)
            if m[1]:
                fields.add(name)
    return found, fields


def code_of(text, path):
    """The text without comments, and for a page of prose only what stands in backticks."""
    if path.endswith(".md"):
        return "\n".join(re.findall(r"`[^`\n]+`", text))
    mark = "--" if path.endswith(".antt") else "//"
    return "\n".join(line.split(mark + " ")[0] if line.lstrip().startswith(mark) else line
                     for line in text.split("\n"))


def main():
    names, fields = own_names()
    new = {n: snake(n) for n in names}
    every = files("crates/*/specs/**/*.antt", "crates/*/proofs/**/*.antt", "crates/*/src/**/*.rt",
                  "crates/*/must-fail/*.edit", "README.md", "docs/**/*.md")
    texts = {f: open(f, encoding="utf-8").read() for f in every}
    tokens = {f: set(re.findall(r"(?<![.])" + NAME.pattern, code_of(t, f))) for f, t in texts.items()}
    # names that would fall together with another name in one file, or with one another
    clash = collections.defaultdict(set)
    for n, m in new.items():
        if any(o != n and new[o] == m and not re.search("[A-Z]", n) for o in names):
            clash[n].add("a definition")
        for f, ts in tokens.items():
            if n in ts and m in ts and not f.endswith((".md", "/Proof.antt", ".edit")):
                clash[n].add(f)
    for n in sorted(clash):
        print(f"falls together: {n}: {new[n]} is {', '.join(sorted(clash[n]))}")
        if "-" in n:
            new[n] += "_lem"
            if any(new[n] in ts for ts in tokens.values()):
                sys.exit(f"{new[n]} is taken")

    def turn(m):
        word = m[0]
        if word not in new:
            return word
        before = m.string[m.start() - 1] if m.start() else ""
        if before == "." and word not in fields:
            return word
        return new[word]

    changed = 0
    for f, text in texts.items():
        if f.endswith(".md"):
            out = re.sub(r"`[^`\n]+`", lambda m: NAME.sub(turn, m[0]), text)
        else:
            out = NAME.sub(turn, text)
        if out != text:
            changed += 1
            open(f, "w", encoding="utf-8").write(out)
    print(f"{len(new)} names respelled, {changed} files changed")


if __name__ == "__main__":
    sys.exit(main())
