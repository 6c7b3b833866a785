#!/usr/bin/env python3
"""Brings the repository's own names in .antt files, clauses and edits to the spelling of today's Rattle.

usage: tools/respell.py            in the repository, once, right after the toolchain's port.py
       tools/respell.py --list     prints each name with its new spelling, and writes nothing

Words that begin in lower case go to snake case (`keygenAnswer` is `keygen_answer`). A dash stays where it joins two names
(`draws-append`), and is `_` where a plain word is added (`made-keys` is `made_keys`). A fact, that is a definition whose value is a
type, begins in upper case. Names of src/, exported names, strings and inputs are not among them: the script takes names from
definitions of specs/ and proofs/ alone, and stops where two names would fall together. The definitions file `Contracts`, whose name
Rattle now takes itself, becomes `Promises`. An edit's text goes the way that its line went: port.py's changes are read off the last
commit, and an edit whose old text is then not found is printed, for a mend by hand.
"""
import collections
import difflib
import glob
import os
import re
import subprocess
import sys

ROOT = subprocess.run(["git", "rev-parse", "--show-toplevel"], capture_output=True, text=True).stdout.strip()
os.chdir(ROOT)
TOKEN = re.compile(r"[^\s(){}\[\],;.:@`\"|]+")
DEFINED = re.compile(r"^(\s*)(?:abbrev pub |unfoldable pub |abbrev |unfoldable |pub )*(data |record )?([^\s(){}:;,.]+)(?: \{[^}]*\}| \([^)]*\))* :(?: (.*))?$")
# names of std's words that ours are joined with
STD = set("""append take drop map length cons nil zero suc sum cond set replicate tabulate min max add mul sub mod div pow le lt
comm assoc reverse filter ltb leb eqb get_or slice_index count front part""".split())
FACTS = {"ready": "IsReady"}
# two that would fall together with a lemma that port.py respelled
OTHERS = {"sumRows": "rows_of_sums", "groupAt": "group_from"}


def antt():
    return sorted(glob.glob("crates/*/specs/*.antt") + glob.glob("crates/*/proofs/**/*.antt", recursive=True))


def snake(name):
    name = name.replace("getD", "get_or").replace("get_d", "get_or")
    return re.sub(r"(?<=[a-z0-9])([A-Z])(?=[a-z])", lambda m: "_" + m.group(1).lower(), re.sub(r"(?<=[a-z0-9])([A-Z])(?![a-z])", lambda m: "_" + m.group(1).lower(), name))


def found():
    """Each name defined in specs/ or proofs/, and the words among them: definitions of specs/ and fields."""
    names, words = collections.defaultdict(set), set()
    for path in antt():
        if path.count("/") > 3:
            continue  # what a proof folder defines is named by Rattle
        for line in open(path, encoding="utf-8"):
            m = DEFINED.match(line.rstrip("\n"))
            if m:
                names[m.group(3)].add(path)
                if "/specs/" in path:
                    words.add(snake(m.group(3)))
    return names, words


def spelled(name, words):
    if name in FACTS:
        return FACTS[name]
    parts = [snake(p) if p[:1].islower() else p for p in name.split("-")]
    if len(parts) == 1 or any(p == "" for p in parts):
        return parts[0] if len(parts) == 1 else name
    known = lambda w: w in words or w in STD or w[:1].isupper() or not w[:1].isalpha()
    out, left = parts[0], parts[0]
    for p in parts[1:]:
        if known(left) and known(p):
            out, left = out + "-" + p, p
        else:
            out, left = out + "_" + p, left + "_" + p
    return out


def table():
    names, words = found()
    plain = {w for w in words if "-" not in w}
    to = {n: spelled(n, plain) for n in names if not re.match(r"(invariant|decreases|returns)(-|$)", n)}
    to = {a: b for a, b in to.items() if a != b} | {a: b for a, b in OTHERS.items() if a in to}
    # a lemma that would have its function's name
    functions = {b for a, b in to.items() if "-" not in a}
    to = {a: b + "_lem" if "-" in a and b in functions else b for a, b in to.items()}
    for extra in ("aLen", "bLen", "cLen", "ciphertextLen", "messageLen", "octetsLen", "publicLen", "secretLen", "sumLen", "wordsLen", "workLen"):
        to[extra] = snake(extra)
    return to


def clash(to):
    """New spellings that another name has already (a path or a field is none), or that two names come to."""
    tokens = collections.Counter()
    for path in antt():
        for line in open(path, encoding="utf-8"):
            tokens.update(TOKEN.findall(re.sub(r"\.[^\s(){}\[\],;.:@]+|(^|\s)--.*", "", line)))
    back = collections.defaultdict(list)
    for a, b in to.items():
        back[b].append(a)
    return [f"{b}: {', '.join(a)}{' and a name that stands' if b in tokens else ''}" for b, a in sorted(back.items()) if len(a) > 1 or b in tokens]


def turned(text, to):
    return TOKEN.sub(lambda m: to.get(m.group(0), m.group(0)), text)


def file_turned(text, to, mark):
    """Code goes by each name; a comment by names in camel case, in quotes, or of this file, since its dashes may be prose's."""
    own = {m.group(3) for m in map(DEFINED.match, text.split("\n")) if m}
    camel = {a: b for a, b in to.items() if re.search("[a-z][A-Z]", a) or a in own}
    out = []
    for line in text.split("\n"):
        at = re.search(r"(^|\s)" + mark + r"(\s|$)", line)
        code, comment = (line, "") if not at else (line[: at.start()], line[at.start() :])
        comment = re.sub("`[^`]+`", lambda m: turned(m.group(0), to), turned(comment, camel))
        out.append(turned(code, to) + comment)
    return "\n".join(out)


def ported_tokens():
    """What port.py made of single tokens, read off each changed file beside the last commit."""
    votes = collections.defaultdict(collections.Counter)
    for path in antt() + sorted(glob.glob("crates/*/src/*.rt")):
        before = subprocess.run(["git", "show", "HEAD:" + path], capture_output=True, text=True).stdout
        a, b = (TOKEN.findall(x) for x in (before, open(path, encoding="utf-8").read()))
        for kind, i, j, k, l in difflib.SequenceMatcher(None, a, b, autojunk=False).get_opcodes() if len(a) < 9000 else []:
            if kind == "replace" and j - i == l - k:
                for x, y in zip(a[i:j], b[k:l]):
                    if re.match(r"[a-z]\w*(-\w+)*$", x) and re.match(r"[a-z]\w*(-\w+)*$", y):
                        votes[x][y] += 1
    return {x: c.most_common(1)[0][0] for x, c in votes.items() if c.most_common(1)[0][1] > 1}


def tight(text):
    """Projections as today's: `(p .n)` is `p.n`, `f x .0` of a call is `(f x).0`."""
    text = re.sub(r"\(([\w'-]+) ((?:\.[\w'-]+ ?)+)\)", lambda m: m.group(1) + m.group(2).replace(" ", ""), text)
    text = re.sub(r"= (\w+(?: \w+)+) (?=\.[A-Za-z0-9])", r"= (\1)", text)
    text = re.sub(r"(?<=[\w')]) (?=\.[A-Za-z0-9])", "", text)
    return text


def edits(to):
    port = ported_tokens()
    missing = 0
    for path in sorted(glob.glob("crates/*/must-fail/*.edit")):
        lines = open(path, encoding="utf-8").read().split("\n")
        crate = os.path.dirname(os.path.dirname(path))
        target = None
        for i, line in enumerate(lines):
            if line.startswith("file: "):
                target = line[6:].strip().replace("specs/Contracts.antt", "specs/Promises.antt")
                lines[i] = "file: " + target
            elif line.startswith(("old: ", "new: ")):
                head, text = line[:5], line[5:]
                if target.endswith(".antt") or re.search(r"\b(requires|ensures)\b|⌜", text):
                    text = tight(turned(turned(text, port), to))
                    text = re.sub(r"\{ (?:λ r\. )?⌜ (.*) ⌝ \}", r"{ \1 }", text)
                lines[i] = head + text
                if head == "old: ":
                    now = open(os.path.join(crate, target), encoding="utf-8").read()
                    if now.count(text) != 1:
                        missing += 1
                        print(f"by hand: {path}: stands {now.count(text)} times in {target}: {text}")
        open(path, "w", encoding="utf-8").write("\n".join(lines))
    print(f"{missing} edits to mend by hand")


def contracts_file():
    """The definitions file `Contracts` becomes `Promises`."""
    if os.path.exists("crates/definitions/specs/Contracts.antt"):
        subprocess.run(["git", "mv", "crates/definitions/specs/Contracts.antt", "crates/definitions/specs/Promises.antt"], check=True)
    for path in antt() + sorted(glob.glob("crates/*/src/*.rt")) + sorted(glob.glob("docs/**/*.md", recursive=True)) + ["README.md"]:
        text = open(path, encoding="utf-8").read()
        new = text.replace("definitions.specs.Contracts", "definitions.specs.Promises").replace("Contracts.antt", "Promises.antt")
        if path.endswith("specs/Lib.antt"):
            new = new.replace("pub mod Contracts", "pub mod Promises")
        if new != text:
            open(path, "w", encoding="utf-8").write(new)


def main():
    to = table()
    if "--list" in sys.argv:
        for a in sorted(to):
            print(a, to[a])
        for line in clash(to):
            print("clash:", line)
        return 0
    if clash(to):
        print("\n".join(clash(to)), file=sys.stderr)
        return 1
    for path in antt():
        text = open(path, encoding="utf-8").read()
        open(path, "w", encoding="utf-8").write(file_turned(text, to, "--"))
    for path in sorted(glob.glob("crates/*/src/*.rt")):
        text = open(path, encoding="utf-8").read()
        open(path, "w", encoding="utf-8").write(file_turned(text, to, "//"))
    for path in sorted(glob.glob("docs/**/*.md", recursive=True)) + ["README.md"]:
        text = open(path, encoding="utf-8").read()
        open(path, "w", encoding="utf-8").write(re.sub(r"`[^`\n]+`", lambda m: turned(m.group(0), to), text))
    contracts_file()
    edits(to)
    return 0


if __name__ == "__main__":
    raise SystemExit(main())
