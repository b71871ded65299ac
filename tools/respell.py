#!/usr/bin/env python3
"""Words in snake case, types and modules in camel case, in specs/, proofs/ and the clauses of src/.

Run once, at the top of the repository, after the port's own script. A name that Rattle generates (a goal, a step of an
answer) and a name of the code keep their spelling. `--list` prints what would be renamed, and names that fall together.
"""
import collections
import glob
import re
import sys

WORD = re.compile(r"[A-Za-z_][A-Za-z0-9_'’·-]*")
DECLARED = re.compile(
    r"(?m)^( *)(?:(?:abbrev|unfoldable|pub|data|record|ruleset|mutual)\s+)*"
    r"([A-Za-z_][A-Za-z0-9_'’·-]*)((?:\s+[({][^(){}]*[)}])*)\s+:\s+(\S*)"
)


# Lemmas on a definition whose name would be theirs.
LEMMAS = set("agree_on answer_back as_many bytes_left goes_on kept_by next_fits table_fits check_back outcome_back reason_back refusal_back".split())


def snake(part):
    if not part or part[0].isupper():
        return part
    out = re.sub(r"(?<=[a-z0-9])([A-Z]+)(?=$|[^a-z])", lambda m: "_" + m.group(1).lower(), part)
    return re.sub(r"(?<=[a-z0-9])([A-Z])", lambda m: "_" + m.group(1).lower(), out)


def respelled(name):
    if name in LEMMAS:
        return name + "_lem"
    if "·" in name:
        return "_".join(snake(p[:1].lower() + p[1:]) for p in name.split("·"))
    return "-".join(snake(p) for p in name.split("-"))


def main():
    listing = "--list" in sys.argv
    antt = sorted(glob.glob("crates/*/specs/**/*.antt", recursive=True) + glob.glob("crates/*/proofs/**/*.antt", recursive=True))
    code = sorted(glob.glob("crates/*/src/**/*.rt", recursive=True))
    texts = {f: open(f).read() for f in antt + code}
    functions = {m for f in code for m in re.findall(r"fn (\w+)", texts[f])}
    plain, goals, where = set(), set(), collections.defaultdict(set)
    for f in antt:
        for m in DECLARED.finditer(texts[f]):
            name, kind = m.group(2), m.group(4)
            if kind.startswith(("tie.", "goal.")):
                goals.add(name)
            else:
                plain.add(name)
                where[name].add(f)
    taken = set()
    for f in antt:
        for m in re.finditer(r"(?m)^(?:ghost )?use ([\w.·-]+)\.\{([^}]*)\}", texts[f]):
            if not m.group(1).startswith(tuple("Rattle.%s." % c for c in crates())):
                for item in m.group(2).split(","):
                    taken.add(item.strip().split(" as ")[-1])
    names = {}
    for name in plain:
        if name in goals or name in taken:
            continue
        new = respelled(name)
        if new != name:
            names[name] = new
    for alias in {a for t in texts.values() for a in re.findall(r" as ([\w’'·-]+)", t)}:
        if alias not in names and alias not in taken and alias not in goals and respelled(alias) != alias:
            names[alias] = respelled(alias)
    for f in antt:
        for word in WORD.findall(texts[f]):
            for part in word.split("-"):
                if part not in names and part not in taken and re.match(r"[a-z][a-z0-9_]*[A-Z]", part):
                    names[part] = respelled(part)
            if "-" in word and word not in goals and word not in taken and re.match(r"[a-z].*[a-z0-9][A-Z]", word):
                names.setdefault(word, respelled(word))
    if listing:
        report(names, plain, taken, functions, where)
        return

    def turn(m):
        word = m.group(0)
        before = m.string[m.start() - 1] if m.start() else " "
        if before == "." and "-" in word:
            return word
        return names.get(word, word)

    for f, text in texts.items():
        if f.endswith(".rt"):
            # The code's own names have no capital behind a small letter.
            new = WORD.sub(lambda m: m.group(0) if m.group(0) in LEMMAS else turn(m), text)
        else:
            new = WORD.sub(turn, text)
        if new != text:
            open(f, "w").write(new)


def crates():
    return [c.split("/")[1] for c in glob.glob("crates/*")]


def report(names, plain, taken, functions, where):
    back = collections.defaultdict(set)
    for old, new in names.items():
        back[new].add(old)
    print(len(names), "names")
    for new, olds in sorted(back.items()):
        others = set(olds)
        if new in plain:
            others.add(new)
        if new in taken:
            others.add("(library) " + new)
        if len(others) > 1:
            print("together:", new, {o: sorted(where.get(o, [])) for o in sorted(others)})
    print("as a function:", " ".join(sorted(n for n in back if n in functions)))


main()
