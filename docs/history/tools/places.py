#!/usr/bin/env python3
"""Lists the places in crates/*/src that an older Rattle would have written and today's need not.

    python3 tools/places.py            the counts, a line for each question
    python3 tools/places.py --list     the places too
    python3 tools/places.py --at REV   as of a commit

A question is a pattern over single lines, or over the bodies of functions. What it finds is a place to look at: docs/DESIGN-PASS.md says
which were changed and why the others stay.
"""
import re
import subprocess
import sys
from collections import defaultdict

LINES = [
    (1, "an Option or Result taken apart only to be put together again", r"None => (return )?(Err\(|None\b)|Some\((\w+)\) => (Ok|Some)\(\2\)|Ok\((\w+)\) => Ok\(\4\)|Err\((\w+)\) => (return )?Err\(\5|Some\(_\) => |Err\(back\) => return Err"),
    (1, "a bool answered by a match of cases", r"=> (true|false),?$"),
    (1, "a bool that says which of two things happened", r"Result<bool>|Ok\((true|false)\)"),
    (1, "a number or letter in place of a case", r"awaited: 0|awaited = 0|awaited: u16|\('[a-z]', count\)|words\.number == 0|number == 0"),
    (3, "an index counted by hand", r"for \w+ in 0\.\.\w|for \(\w+, \w+\) in \w+\.(iter|iter_mut)\(\)\.enumerate|while \w+ < |while !\w+\.is_empty|^\s+\w+ \+= 1;"),
    (3, "a loop that only looks for something", r"return Some\((i|item\.mark|switch)\);|^\s{8,}return (true|false);|^\s{12,}return i;"),
    (4, "a type of plain data without equality or Debug", r"#\[derive\(Clone, Copy\)\]|#\[derive\(Drop\)\]"),
    (4, "a function that names a case as text", r"fn \w*name\w*\(.*&'static str"),
    (4, "comparing, converting or printing by hand", r"fn (is_for|is_open|is_name|is_numeral|is_digit|value|key_of|told|refused|of_tenths|sort_of|named|show_packet|tell_packet|is_due|is_settled|is_forbidden)\b"),
    (5, "two facts in one requires", r"requires \{ \(.*×"),
    (5, "a model written out in a clause", r"switch_model (self|result|switch|s)\b|map switch_model|S\.ActorStore\.meaning"),
    (5, "draft and buffer side by side", r"draft: Draft.*buf: &mut \[u8\]|self, buf: &mut|\(draft, buf"),
    (6, "an array with a count beside it", r"count: usize,|: \[\w+; (32|64|256|257)\]"),
    (6, "the front of such an array", r"\[0\.\.(self\.)?count\]|\[0\.\.self\.count\]"),
    (6, "a sorted list searched by hand", r"fn rank|let middle"),
    (7, "a step named by an enum and run by a match", r"SwitchStep::|Fate::"),
    (7, "names compared one after another", r"if is_name\("),
]


def sources(rev):
    names = subprocess.run(["git", "ls-tree", "-r", "--name-only", rev, "crates"] if rev else ["git", "ls-files", "crates"],
                           capture_output=True, text=True, check=True).stdout.split()
    for name in names:
        if re.fullmatch(r"crates/\w+/src/\w+\.rt", name):
            text = subprocess.run(["git", "show", f"{rev}:{name}"], capture_output=True, text=True, check=True).stdout if rev else open(name).read()
            yield name, text


def functions(text):
    """Each function with a body: its name, its first line, its signature without clauses, and its body."""
    lines = text.split("\n")
    for i, line in enumerate(lines):
        m = re.match(r"(\s*)(pub(\(crate\))? )?fn (\w+)", line)
        if not m:
            continue
        pad, j = m.group(1), i
        while j < len(lines) and lines[j] not in (pad + "{", pad + "}", pad + "{}") and not lines[j].endswith(";") and not (lines[j].endswith("{") and j == i):
            j += 1
        if j < len(lines) and lines[j].endswith("{"):
            k = j
            while k < len(lines) and lines[k] != pad + "}":
                k += 1
            yield m.group(4), i + 1, "\n".join(lines[j + 1:k])


def shape(body):
    """A body with its names, numbers and variants left open, for finding twins."""
    body = re.sub(r"//.*", "", body)
    body = re.sub(r"b?'(\\?.)'|b?\"[^\"]*\"|\b0x[0-9A-Fa-f_]+\b|\b\d[\d_]*(_?[iu]\d+|usize)?\b", "#", body)
    body = re.sub(r"\b[ui](8|16|32|64)\b", "int", body)
    body = re.sub(r"\b(?!let|mut|return|match|if|else|for|in|while|Some|None|Ok|Err|self|Self)[A-Za-z_]\w*\b", "x", body)
    return re.sub(r"\s+", " ", body).strip()


def main():
    rev = sys.argv[sys.argv.index("--at") + 1] if "--at" in sys.argv else None
    show = "--list" in sys.argv
    files = list(sources(rev))
    for point, what, pattern in LINES:
        found = [(name, n + 1, line.strip()) for name, text in files for n, line in enumerate(text.split("\n"))
                 if re.search(pattern, line) and not line.strip().startswith("ghost use")]
        print(f"point {point}  {len(found):4}  {what}")
        if show:
            for name, n, line in found:
                print(f"      {name}:{n}: {line[:120]}")
    twins = defaultdict(list)
    for name, text in files:
        for fn, line, body in functions(text):
            if len(body) > 25:
                twins[shape(body)].append(f"{name}:{line} {fn}")
    groups = [g for g in twins.values() if len(g) > 1]
    print(f"point 2  {sum(map(len, groups)):4}  functions whose bodies have the shape of another's, in {len(groups)} groups")
    if show:
        for group in groups:
            print("      " + "; ".join(group))


main()
