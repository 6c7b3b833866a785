#!/usr/bin/env python3
"""Lists the places in src/ where an older form stands, point by point, as docs/DESIGN-PASS.md counts them.

    tools/places.py [COMMIT] [--list]

With no COMMIT it reads the work tree. --list prints each place and not the counts alone."""
import difflib
import re
import subprocess
import sys


def files(commit):
    """Each source file's path and text."""
    args = ["git", "ls-files"] if commit is None else ["git", "ls-tree", "-r", "--name-only", commit]
    paths = subprocess.run(args, capture_output=True, text=True, check=True).stdout.split("\n")
    for path in sorted(p for p in paths if re.fullmatch(r"crates/\w+/src/\w+\.rt", p)):
        if commit is None:
            yield path, open(path, encoding="utf-8").read()
        else:
            show = ["git", "show", f"{commit}:{path}"]
            yield path, subprocess.run(show, capture_output=True, text=True, check=True).stdout


def functions(text):
    """Each function's name, parameters, answer, clauses and body."""
    form = r"^ *(?:#\[.*\n *)?(?:pub )?(?:extern \"C\" )?fn (\w+)(?:<[^\n]*?>)?\(((?:[^()]|\([^()]*\))*)\)( -> [^\n{]+)?\s*((?:(?:requires|ensures).*\n *)*)\{\n((?:.*\n)*?) *\}\n"
    for found in re.finditer(form, text, re.M):
        yield found.groups()


def plain(body):
    """A body's words, with numbers and names of constants all alike."""
    body = re.sub(r"//.*", "", body)
    return re.findall(r"[A-Za-z_]+|[^\sA-Za-z_0-9]", re.sub(r"\b[A-Z_]{3,}\b|\b[0-9]+\b", "N", body))


def twins(path, all_functions):
    """Functions that read like another one of the file: a line for each group, a place for each function."""
    long = [(name, plain(body)) for name, _, _, _, body in all_functions if len(plain(body)) >= 20]
    groups = []
    for name, body in long:
        like = [g for g in groups if any(difflib.SequenceMatcher(None, body, b, autojunk=False).ratio() >= 0.8 for _, b in g)]
        groups = [g for g in groups if g not in like] + [[(name, body)] + [f for g in like for f in g]]
    for group in groups:
        if len(group) > 1:
            names = sorted(name for name, _ in group)
            yield from (f"{path}: {name}, of {', '.join(names)}" for name in names)


POINTS = {
    "1 enums of the repository's own": lambda t: re.findall(r"^ *(?:pub )?enum \w+", t, re.M),
    "1 uses of a refusal's number": lambda t: re.findall(r"refusals::[A-Z_]{3,}\b", t),
    "1 numbers answered for a refusal, a find or a yes": lambda t: [
        f for f, params, answer, _, body in functions(t)
        if answer and answer.strip() in ("-> u32", "-> usize") and re.search(r"return (0|1|refus\w+(::[A-Z_]+)?);|\(work, refusals|^    [01]$", body, re.M)],
    "1 flags beside values": lambda t: re.findall(r"^ *pub \w+: bool,", t, re.M),
    "3 while loops": lambda t: re.findall(r"\bwhile [^\n]*", re.sub(r"//.*", "", t)),
    "4 copies, least of two, clearing by hand": lambda t: re.findall(
        r"if (\w+) < (\w+) \{ \1 \} else \{ \2 \}|(?<=    )\w+\[[^\]]*\] = (?:0|\w+\[[^\]]*\]);|fn (?:move_front|wide)\b", t),
    "5 AcceptedSet in a clause": lambda t: re.findall(r"(?:requires|ensures).*AcceptedSet", t),
    "5 functions of six parameters or more": lambda t: [
        f for f, params, *_ in functions(t) if len([p for p in params.split(",") if p.strip()]) >= 6],
    "6 a slice with an offset into it": lambda t: [
        f for f, params, *_ in functions(t)
        if re.search(r"\[u(8|32|64)\], *\n? *(at|from|start|c|a|kept|have): usize|\[u(8|32|64)\], \w+: usize, \w+: usize", params)],
    "7 chains of tests of a width": lambda t: re.findall(r"if (?:qlen|b|len) == \d", t),
}


def main():
    commit = next((a for a in sys.argv[1:] if not a.startswith("-")), None)
    all_files = list(files(commit))
    found = {point: [] for point in POINTS}
    found["2 twins in one file"] = []
    for path, text in all_files:
        for point, places in POINTS.items():
            found[point] += [f"{path}: {p if isinstance(p, str) else ''.join(p)}" for p in places(text)]
        found["2 twins in one file"] += list(twins(path, list(functions(text))))
    for point in sorted(found):
        print(f"{len(found[point]):4} {point}")
        if "--list" in sys.argv:
            for place in found[point]:
                print(f"       {place}")


main()
