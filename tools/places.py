#!/usr/bin/env python3
"""Lists the places of src/ that could be written in a newer form of Rattle, by point. docs/DESIGN-PASS.md says what the points are.

    tools/places.py [POINT..]     prints each place found, and at the end the number of each point
"""
import glob
import re
import sys
from collections import defaultdict

ARRAY = r"\[\w+; [\w:]+\]"


def sources():
    for path in sorted(glob.glob("crates/*/src/**/*.rt", recursive=True)):
        with open(path) as file:
            yield path, file.read()


def places(pattern):
    """Every match of a pattern, with its file and line."""
    for path, text in sources():
        for found in re.finditer(pattern, text, re.M):
            line = text.count("\n", 0, found.start()) + 1
            yield f"{path}:{line}", found


def functions():
    """Each function of src/: its place, its name, its parameters and its clauses."""
    for path, text in sources():
        for found in re.finditer(r"^ *(?:pub(?:\(crate\))? )?(?:extern \"C\" )?fn (\w+)[^(]*\(", text, re.M):
            depth, end = 1, found.end()
            while depth:
                depth += {"(": 1, ")": -1}.get(text[end], 0)
                end += 1
            given = re.sub(r"\s+", " ", text[found.end() : end - 1]).strip(" ,")
            head = text[end : text.index("\n{", end) if "\n{" in text[end:] else end]
            head = re.split(r"\n *}\n", head)[0]
            clauses = re.findall(r"requires (?:\w+ )?\{ (.*) \}", head)
            line = text.count("\n", 0, found.start()) + 1
            parameters = [p.strip() for p in given.split(", ") if ":" in p]
            yield f"{path}:{line}", path.split("/")[1], found[1], parameters, clauses


def bodies():
    """Each function of src/: its place, its name, its parameters and its body."""
    for place, crate, name, parameters, _ in functions():
        path, line = place.split(":")
        with open(path) as file:
            text = "".join(file.readlines()[int(line) - 1 :])
        start = re.search(r"^ *(?:requires|ensures) .*\n *\{\n|\{\n", text, re.M).end()
        yield place, crate, name, parameters, text[start : re.search(r"^ {0,4}\}\n", text[start:], re.M).start() + start]


def options():
    for place, found in places(r"^ *(?:pub(?:\(crate\))? )?enum (\w+)[^{]*\{\n((?:.*\n)*?)^ *\}"):
        cases = re.findall(r"^ {4,8}(\w+)(\(|,| \{)", found[2], re.M)
        yield place, f"enum {found[1]}: {', '.join(name + ('(..)' if more != ',' else '') for name, more in cases)}"
    for place, found in places(r"^ *(?:pub(?:\(crate\))? )?const (\w+): (?:u8|u16) = .*;"):
        yield place, f"a number for a kind: {found[1]}"
    for place, found in places(r"^ *(?:pub )?(\w+): bool,"):
        yield place, f"a flag beside other values: {found[1]}"


def twins():
    """Functions whose texts are the same once names of their own, numbers and texts are put aside."""
    shapes = defaultdict(list)
    for path, text in sources():
        for found in re.finditer(r"^ *(?:pub(?:\(crate\))? )?fn (\w+)(.*\n(?:.*\n)*?) *\}\n", text, re.M):
            body = found[2].split("\n{\n", 1)[-1] if "\n{\n" in found[2] else found[2]
            body = re.sub(r'b?"[^"]*"|b\'.{1,2}\'', "T", re.sub(r"//.*", "", body))
            body = re.sub(r"\b[A-Z][A-Z_0-9]+\b|\b\d+\b", "N", body)
            names = {}
            body = re.sub(r"\b[a-z_]\w*\b", lambda m: m[0] if m[0] in KEPT else names.setdefault(m[0], f"v{len(names)}"), body)
            body = re.sub(r"\s+", " ", body)
            if len(body) > 60:
                shapes[body].append((f"{path}:{text.count(chr(10), 0, found.start()) + 1}", found[1]))
    for same in shapes.values():
        if len(same) > 1:
            yield same[0][0], "twins: " + ", ".join(f"{name} ({place.split('/', 1)[1]})" for place, name in same)


KEPT = set("if else match return while for in let mut loop fn as true false u8 u16 u32 u64 usize bool self len".split())


def loops():
    for place, found in places(r"^ *(while|loop)\b(.*)\{"):
        yield place, f"{found[1]}{found[2]}".strip()


def conversions():
    for place, found in places(r"^ *(?:pub(?:\(crate\))? )?fn (\w+)\(\w+: ([A-Z]\w+|u8|bool|u16)\) -> (u8|u16|u32|u64|usize|bool|[A-Z]\w+)\b"):
        if found[2] != found[3]:
            yield place, f"{found[1]}: {found[2]} to {found[3]}"


def together():
    groups = defaultdict(lambda: defaultdict(set))
    for place, crate, name, parameters, _ in functions():
        for at in range(len(parameters) - 2):
            groups[crate][tuple(parameters[at : at + 3])].add((place, name))
    for crate in sorted(groups):
        runs = []
        for group, where in groups[crate].items():
            if len(where) > 2:
                # a run that begins where another one of the same functions goes on is one group with it
                for run in runs:
                    if run[0][-2:] == group[:2] and run[1] == where:
                        run[0] += group[2:]
                        break
                else:
                    runs.append([group, where])
        for group, where in runs:
            yield min(where)[0], f"{crate}: {', '.join(group)} in {', '.join(sorted(n for _, n in where))}"
    facts = defaultdict(list)
    for place, crate, name, _, clauses in functions():
        for clause in clauses:
            for part in re.split(r" × ", clause):
                facts[crate, part.strip("() ")].append((place, name))
    for (crate, fact), where in sorted(facts.items()):
        if len(where) > 2:
            yield where[0][0], f"{crate}: {fact} in {', '.join(n for _, n in where)}"


def buffers():
    for place, found in places(r"^ *(?:pub )?(\w+): " + ARRAY + r",\n *(?:pub )?(\w+): usize"):
        yield place, f"{found[1]} with {found[2]} beside it"
    for place, crate, name, parameters, _ in functions():
        given = " ".join(parameters)
        if re.search(r"\w+: &(mut )?" + ARRAY + r" n: usize", given):
            yield place, f"{crate}: {name} takes a buffer, and how much of it is filled"
        if len(re.findall(r"(?:places|marks|seen): &", given)) > 1:
            yield place, f"{crate}: {name} takes parallel arrays"


def switches():
    """Functions that call one function or another by a flag or a number that the caller gives."""
    for place, crate, name, parameters, body in bodies():
        for parameter in parameters:
            given = re.fullmatch(r"(\w+): (usize|bool)", parameter)
            call = r"\s*(?:return )?(?:let \w+ = )?(?!Err|Ok|Some)[\w:]+\("
            if given and re.search(rf"if !?{given[1]} \{{{call}|if {given[1]} == \d+ \{{{call}|match {given[1]} \{{\s*\w+ =>{call}", body):
                yield place, f"{crate}: {name} goes by {parameter}"


POINTS = {"1": options, "2": twins, "3": loops, "4": conversions, "5": together, "6": buffers, "7": switches}

if __name__ == "__main__":
    asked = sys.argv[1:] or sorted(POINTS)
    numbers = []
    for point in asked:
        found = list(POINTS[point]())
        for place, what in found:
            print(f"{point}  {place}  {what}")
        numbers.append(f"point {point}: {len(found)}")
    print("; ".join(numbers))
