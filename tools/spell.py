#!/usr/bin/env python3
"""Spells this repository's own definitions and lemmas as Rattle's library does: words in snake case, facts in camel case.

usage: spell.py [--check]      at the top of the repository, once, right after /opt/rattle/port/port.py

A name is turned where specs/ or proofs/ declare it with a dash, or as a fact with a small letter: `block-laws` becomes `block_laws`,
`Line-is` becomes `LineIs`. Names of goals and of steps, which Rattle makes, stay, and so do functions, exported names,
strings and prose. Must-fail edits turn with the text that they speak of. With --check it writes nothing. Names that
would fall together are an error, and then nothing is written.
"""
import collections
import glob
import re
import sys

WORD = r'[^\s(){}.;,@"«»:]+'
KINDS = r"(?:(?:pub|abbrev|unfoldable|data|record|ruleset)\s+)*"
DECLARED = re.compile(rf"(?m)^ *({KINDS})({WORD})((?: [({{][^\n]*?[)}}])*) : ?([^\n]*)")
PROSE = re.compile(r"(?m)(?:^|(?<=\s))--[^\n]*")
# names whose new spelling would be taken: by a field, a parameter or a ghost member of the code, or by a library
OTHERWISE = {}


def files():
    for pattern in ("crates/*/specs/*.antt", "crates/*/proofs/**/*.antt", "crates/*/src/**/*.rt"):
        yield from sorted(glob.glob(pattern, recursive=True))


def is_made(path):
    """Whether a file answers goals, whose names Rattle makes."""
    return re.search(r"/proofs/.*/", path) is not None


def turned(name):
    if name in OTHERWISE:
        return OTHERWISE[name]
    if name[0].isupper():
        head, *rest = name.split("-")
        return head + "".join(r[0].upper() + r[1:] for r in rest)
    return re.sub(r"(?<=[a-z0-9])[A-Z]", lambda m: "_" + m[0].lower(), name).replace("-", "_")


def declared():
    """Each name that is declared, with the files."""
    out = collections.defaultdict(set)
    for path in files():
        if path.endswith(".rt"):
            continue
        text = PROSE.sub("", open(path, encoding="utf-8").read())
        for m in DECLARED.finditer(text):
            if not m[4].startswith("goal."):
                out[m[2]].add(path)
    for path in files():
        for m in re.finditer(rf"(?<=[{{ ]){WORD} as ({WORD})(?=[,}};\n])", open(path, encoding="utf-8").read()):
            out[m[1]].add(path)
    out["keyLength"].add("crates/ciphers/src/function.rt")
    return out


def table(names):
    rows = {n: turned(n) for n in names if turned(n) != n}
    back = collections.defaultdict(list)
    for old, new in rows.items():
        back[new].append(old)
    # the trait's ghost member and the format's number may share their name: no file has both
    apart = {"key-length", "keyLength"}
    faults = [f"{' and '.join(olds)} would all be {new}" for new, olds in back.items() if len(olds) > 1 and set(olds) != apart]
    faults += [f"{old}: {new} is declared already" for old, new in rows.items() if new in names]
    # a word of specs/ may be called as a function is: no clause can call the function, and no code the word
    functions = {f for p in files() if p.endswith(".rt") for f in re.findall(r"\bfn (\w+)", open(p, encoding="utf-8").read())}
    for path in files():
        text = open(path, encoding="utf-8").read()
        text = PROSE.sub("", text) if path.endswith(".antt") else re.sub(r"//[^\n]*", "", text)
        words = set(re.findall(WORD, text))
        if path.endswith(".rt"):
            words |= set(re.findall(r"\w+", text))
        if path.endswith(".rt") or is_made(path):
            words -= functions
        faults += [f"{old}: {path} has {new} already" for old, new in rows.items() if new in words]
    return rows, faults


def spelled(text, rows, made, dotted):
    """A piece of code with its words turned. In a file of answers what stands right behind c. or goal. is a name that Rattle made."""
    def word(m):
        w = m[0]
        if w not in rows:
            return w
        before = text[max(0, m.start() - 200):m.start()]
        if before.endswith("."):
            head = re.search(rf"({WORD}(?:\.{WORD})*)\.$", before)
            path = head[1].split(".") if head else []
            if made and path and (path[-1] in ("goal", "c", "fn", "initial", "args", "new") or path == ["l"]):
                return w
            if w not in dotted and not (path and path[0] in ("Rattle",)):
                return w
        return rows[w]
    return re.sub(WORD, word, text)


def in_code(text, rows, made, dotted, quiet):
    """The text with its code turned; what matches quiet (comments, strings) stays, but for code spans of comments."""
    out, at = [], 0
    for m in quiet.finditer(text):
        out.append(spelled_at(text, at, m.start(), rows, made, dotted))
        out.append(re.sub(r"`[^`\n]*`", lambda s: spelled(s[0][1:-1], rows, made, dotted).join("``"), m[0]) if m[0][:2] in ("--", "//") else m[0])
        at = m.end()
    out.append(spelled_at(text, at, len(text), rows, made, dotted))
    return "".join(out)


def spelled_at(text, a, b, rows, made, dotted):
    return spelled(text[a:b], rows, made, dotted)


def kept_labels(text, rows, made):
    """The names that the file's own goals have: they stay in their lines."""
    return {n for n in re.findall(rf"(?m)^ *{KINDS}({WORD}) : goal\.", text)} if made else set()


QUIET_ANTT = re.compile(r'(?m)(?:^|(?<=\s))--[^\n]*|"[^"\n]*"')
QUIET_RT = re.compile(r'//[^\n]*|b?"(?:\\.|[^"\\\n])*"')


def turn(path, text, rows, dotted):
    if path.endswith(".antt"):
        made = is_made(path)
        mine = kept_labels(text, rows, made)
        return in_code(text, {o: n for o, n in rows.items() if o not in mine}, made, dotted, QUIET_ANTT)
    return in_code(text, {o: n for o, n in rows.items() if "-" in o or o == "keyLength"}, False, dotted, QUIET_RT)


def main():
    names = declared()
    rows, faults = table(names)
    if faults:
        print("\n".join(faults))
        print(f"{len(faults)} faults: nothing is written")
        return 1
    fields = {m[2] for p in files() if p.endswith(".antt") for m in DECLARED.finditer(open(p, encoding="utf-8").read()) if m[0].startswith(" ")}
    changed = 0
    paths = list(files()) + sorted(glob.glob("crates/*/must-fail/*.edit"))
    for path in paths:
        text = open(path, encoding="utf-8").read()
        if path.endswith(".edit"):
            kind, lines = "x.rt", []
            for line in text.splitlines(keepends=True):
                if line.startswith("file: "):
                    kind = line.split(": ", 1)[1].strip()
                    lines.append(line)
                else:
                    key, sep, rest = line.partition(":")
                    lines.append(key + sep + turn(kind, rest, rows, fields))
            new = "".join(lines)
        else:
            new = turn(path, text, rows, fields)
        if new != text:
            changed += 1
            if "--check" not in sys.argv:
                open(path, "w", encoding="utf-8").write(new)
    for path in sorted(glob.glob("*.md") + glob.glob("docs/*.md")):
        text = open(path, encoding="utf-8").read()
        new = re.sub(r"`[^`\n]*`", lambda s: spelled(s[0], {o: n for o, n in rows.items() if "-" in o}, False, fields), text)
        if new != text and "--check" not in sys.argv:
            open(path, "w", encoding="utf-8").write(new)
    print(f"{len(rows)} names turned, in {changed} files")
    return 0


if __name__ == "__main__":
    sys.exit(main())
