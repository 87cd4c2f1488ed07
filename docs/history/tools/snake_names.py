#!/usr/bin/env python3
"""Spells the repository's own definitions, lemmas and ghost names in snake case, and gives the crate `hex` a name of its own.

usage: python3 tools/snake_names.py [ROOT]

Run once, on what /opt/rattle/port/port.py left. Types, facts and modules keep their upper camel case; names that Rattle makes
(goals, loops, returns), names of the kit's libraries and names of Rust items keep theirs. It prints the names that it turned,
and stops before it writes where two names would fall together in one file.
"""

import glob
import os
import re
import subprocess
import sys

OLD_CRATE, NEW_CRATE = "hex", "hexadecimal"

# A word of antt's text.
WORD = re.compile(r"[^\s(){}.;,@\"«»]+")
MADE = re.compile(r"^(?:invariant|decreases|loop|returns)-")
DECLARED = re.compile(r"^ *(?:(?:abbrev|unfoldable|pub|private|opaque|data|record) +)*([^\s(){}.;,@\"«»]+)((?: \{[^{}\n]*\})*) : (.*)$", re.M)
BOUND = re.compile(r"(?:\blet|\bin let) +([^\s(){}.;,@\"«»]+) (?::|=)|\blet +\{?([^\s(){}.;,@\"«»]+)\}? (?::|=)")
PARAMETERS = re.compile(r"[({]([^\s(){}.;,@\"«»:]+(?: [^\s(){}.;,@\"«»:]+)*) : ")
LAMBDA = re.compile(r"λ ((?:[^\s(){}.;,@\"«»]+ ?)+)\.")
USE = re.compile(r"^(?:ghost )?use ([^\s;{]+)\.?(?:\{([^}]*)\})?", re.M)
BEHIND = re.compile(r"(?<![^\s({,;])(?:c|l|goal|given|g)\.$")


def is_turned(name):
    return bool(re.match(r"[a-z]", name)) and bool(re.search(r"[a-z0-9][A-Z]|[a-z0-9]-", name)) and not MADE.match(name)


def snake(name):
    # A type's or a fact's name keeps its capital behind a dash.
    words = re.sub(r"(?<=[a-z0-9])([A-Z])", lambda m: "_" + m[1].lower(), name)
    return words.replace("-", "_")


def files(root, *kinds):
    for kind in kinds:
        yield from sorted(glob.glob(os.path.join(root, kind), recursive=True))


def read(path):
    with open(path, encoding="utf-8") as f:
        return f.read()


def uncommented(text):
    return re.sub(r"(?m)(?<!\S)--.*$", "", text)


def own_crates(root):
    return sorted(os.listdir(os.path.join(root, "crates")))


def library_names(texts, crates):
    found = set()
    for text in texts.values():
        for m in USE.finditer(text):
            steps = m[1].split(".")
            if steps[0] == "Rattle" and len(steps) > 1 and steps[1] in crates:
                continue
            for item in (m[2] or "").split(","):
                found.update(w for w in item.split() if w != "as")
    return found


def declared_names(texts):
    found = set()
    for path, text in texts.items():
        if not path.endswith(".antt"):
            continue
        text = uncommented(text)
        for m in DECLARED.finditer(text):
            if not re.match(r"(?:goal|given)\.", m[3]):
                found.add(m[1])
        for m in BOUND.finditer(text):
            found.add(m[1] or m[2])
        for m in PARAMETERS.finditer(text):
            found.update(m[1].split())
        for m in LAMBDA.finditer(text):
            found.update(m[1].split())
    return found


def aliases(texts):
    found = set()
    for text in texts.values():
        for m in USE.finditer(text):
            found.update(re.findall(r" as ([^\s,]+)", m[2] or ""))
    return found


def turn_antt(text, table):
    def word(m):
        new = table.get(m[0])
        if new is None or BEHIND.search(text, 0, m.start()):
            return m[0]
        return new

    return WORD.sub(word, text)


def turn_rust(text, table):
    parts = re.split(r"(b?\"(?:\\.|[^\"\\])*\")", text)
    for i in range(0, len(parts), 2):
        parts[i] = re.sub(r"(?<![\w-])[a-z]\w*(?![\w-])", lambda m: table.get(m[0], m[0]), parts[i])
        lines = parts[i].split("\n")
        for k, line in enumerate(lines):
            if line.lstrip().startswith("ghost use"):
                lines[k] = turn_antt(line, table)
        parts[i] = "\n".join(lines)
    return "".join(parts)


def turn_page(text, table):
    def span(m):
        return re.sub(r"(?<![\w./-])[a-z][\w-]*(?![\w./-])", lambda w: table.get(w[0], w[0]), m[0])

    return re.sub(r"`[^`\n]+`", span, text)


def turn_crate(path, text):
    text = text.replace(f"Rattle.{OLD_CRATE}.", f"Rattle.{NEW_CRATE}.")
    if path.endswith(".rt"):
        text = re.sub(rf"(?<![\w.]){OLD_CRATE}::", f"{NEW_CRATE}::", text)
    if path.endswith("crates.txt"):
        text = re.sub(rf"\b{OLD_CRATE}\b", NEW_CRATE, text)
    return text


def collisions(texts, table):
    bad = []
    for path, text in texts.items():
        # A module's name, as of a function's proof, and a Rust function's are apart from the words of clauses.
        if path.endswith(".antt"):
            words = set(WORD.findall(re.sub(r"(?m)^use [^\s{]+", "", uncommented(text))))
        else:
            words = set(re.findall(r"(?<![\w.])\w+", text)) - set(re.findall(r"\bfn (\w+)", text))
        seen = {}
        for w in sorted(words):
            new = table.get(w)
            if new is None:
                continue
            if new in words:
                bad.append(f"{path}: {w} -> {new}, which stands there")
            if new in seen:
                bad.append(f"{path}: {w} and {seen[new]} -> {new}")
            seen[new] = w
    return bad


def main(argv):
    root = argv[0] if argv else "."
    crates = own_crates(root)
    paths = list(files(root, "crates/*/specs/**/*.antt", "crates/*/proofs/**/*.antt", "crates/*/src/**/*.rt"))
    texts = {p: apart(p, read(p)) for p in paths}
    before = {p: read(p) for p in paths}
    library = library_names(texts, crates)
    own = (declared_names(texts) | aliases(texts)) - library
    table = {n: snake(n) for n in sorted(own) if is_turned(n)}
    table.update(KEPT)
    bad = collisions(texts, table)
    for line in bad:
        print("falls together: " + line)
    for n in sorted(x for x in declared_names(texts) & library if is_turned(x)):
        print(f"look: {n} is a library's name too, and stays")
    if bad:
        return 1
    for p, text in texts.items():
        new = turn_crate(p, turn_antt(text, table) if p.endswith(".antt") else turn_rust(text, table))
        if new != before[p]:
            with open(p, "w", encoding="utf-8") as f:
                f.write(new)
    for p in files(root, "README.md", "docs/*.md", "docs/*/*.md"):
        text = read(p)
        new = turn_page(text, table)
        if new != text:
            with open(p, "w", encoding="utf-8") as f:
                f.write(new)
    listed = os.path.join(root, "crates.txt")
    text = turn_crate(listed, read(listed))
    with open(listed, "w", encoding="utf-8") as f:
        f.write(text)
    subprocess.run(["git", "mv", f"crates/{OLD_CRATE}", f"crates/{NEW_CRATE}"], cwd=root, check=True)
    for n, new in sorted(table.items()):
        print(f"{n} -> {new}")
    return 0


# Names that would be spelled badly or as their function's, or that patterns alone bind, each with the name that it gets.
KEPT = {
    "after-put": "after_put_lem",
    "takesVersion02FF": "takes_version_02ff",
    "refusesVersion0300": "refuses_version_0300",
    "no-feed": "no_feed",
    "open-slip": "open_slip",
    "no-valid": "no_valid",
    "getD-bytesOf": "get_or_bytes_of",
    "getD-digitsOf-high": "get_or_digits_of_high",
    "getD-digitsOf-low": "get_or_digits_of_low",
}
IN_FILES = [("crates/law/proofs/Granted.antt", "hand_in", "hand_in_lem")]


def apart(path, text):
    for file, old, new in IN_FILES:
        if path.endswith(file):
            text = turn_antt(text, {old: new})
    return text


if __name__ == "__main__":
    raise SystemExit(main(sys.argv[1:]))
