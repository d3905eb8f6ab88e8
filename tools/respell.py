#!/usr/bin/env python3
"""Brings this repository's own names to one spelling: words in snake case, types and modules in camel case.

usage: tools/respell.py        at the top of the repository, once, right after the kit's port.py

It turns the names that crates/ declares in specs/ and proofs/ (definitions, constructors, fields, lemmas, local names): 'bulkFault' and
'bulk-fault' become 'bulk_fault', 'Put-so' becomes 'PutSo'. It writes .antt files, the clauses and 'ghost use' lines of .rt files, and the
code spans of pages and of comments, and the lines of must-fail edits. Names of Rust, of a library, and those that Rattle makes of them (behind tie., goal. and c.) stay.
A lemma that would have a definition's name gets '_lem': beside 'value_turn' stands 'value_turn_lem'. It stops, and writes nothing, where two names would fall together in one file.
A dot that stood for a module in a name of ours is a '_' too.
"""
import collections
import glob
import os
import re
import sys

WORD = re.compile(r"[^\s(){}.;,@\"«»\[\]]+")
QUIET = re.compile(r'"(?:[^"\\\n]|\\.)*"|(?<![^\s(){}.;,@"«»])--[^\n]*')
SPAN = re.compile(r"`[^`\n]+`")
DECLARED = re.compile(r"(?m)^ *(?:pub |abbrev |unfoldable )*([^\s:(){}]+)(?: \{[^{}\n]*\}| \([^()\n]*\))* :(?= |$)(?! *tie\.)")
BOUND = re.compile(r"\blet ([^\s:(){}]+) (?::|=)|[({]((?:[^\s:(){}]+ )+):(?= )|λ ((?:[^\s:(){}.]+ ?)+)\.|\bas ([a-z][^\s,}]*)(?=[,}])")
IMPORTED = re.compile(r"(?m)^use (\S+?)\.\{([^}]*)\}")
CLAUSE = re.compile(r"(?:requires|ensures)\s*\*?\s*(?:\w+\s*)?(?=\{)|ghost\s*(?:\w+\s*(?::\s*(?:(?:owns|lends)\s*)?|=\s*))?(?=\{)")
GHOST_USE = re.compile(r"ghost use\b[^;]*;")
LOWER = re.compile(r"[a-zα-ω]")
# a local name that no longer differs from a definition's, and hides nothing that its declaration cites
LOCAL = {"byte_at"}


def turned(name):
    if name[0].isupper():
        head, *rest = name.split("-")
        return head + "".join(r[:1].upper() + r[1:] for r in rest)
    hump = r"(?<=[a-z0-9₀-₉'])[A-Z]|(?<=[A-Z])[A-Z](?=[a-z])"
    return re.sub(hump, lambda m: "_" + m[0].lower(), name).replace("-", "_").replace("·", "_")


def antt_files():
    return sorted(f for f in glob.glob("crates/*/specs/**/*.antt", recursive=True) + glob.glob("crates/*/proofs/**/*.antt", recursive=True) if "/out/" not in f)


def names(texts):
    """The table: each name that the texts declare or bind, and that is spelled otherwise."""
    table, library, plain, kept = {}, set(), set(), set()
    for text in texts.values():
        code = QUIET.sub('""', text)
        for path, items in IMPORTED.findall(code):
            if not path.startswith("Rattle.") or path.startswith(("Rattle.std.", "Rattle.core.")):
                library |= {re.split(r" as ", it)[0].strip(" «»\n") for it in items.split(",")}
        found = set(DECLARED.findall(code))
        for groups in BOUND.findall(code):
            found |= {w for g in groups for w in g.split()}
        for name in found:
            if LOWER.match(name) and "-" not in name:
                (plain if turned(name) != name else kept).add(turned(name))
            if LOWER.match(name) and (re.search(r"[a-z0-9][A-Z]", name) or re.search(r"\w[-·]\w", name)) or re.match(r"[A-Z]\w*-\w", name):
                table[name] = turned(name)
    for name in library:
        table.pop(name, None)
    for name in table:
        if "-" in name and table[name] in plain | kept:
            table[name] += "_lem"
    for name in plain & kept - LOCAL:
        table[name] = name + "_lem"
    return table


def fall_together(texts, table):
    """The names that would meet another name of their file."""
    met = set()
    for path, text in texts.items():
        code = QUIET.sub('""', text)
        words = {m[0] for m in WORD.finditer(code) if code[m.start() - 1 : m.start()] != "."}
        met |= {(path, w) for w in words if w in table and table[w] in words and table[w] not in table and table[w] not in LOCAL}
        back = collections.defaultdict(set)
        for w in words & table.keys():
            back[table[w]].add(w)
        met |= {(path, w) for ws in back.values() if len(ws) > 1 for w in ws}
    return met


def in_this_file(text, table):
    """The table without the lemmas that get '_lem' for their own spelling, where the file neither declares nor imports them."""
    code = QUIET.sub('""', text)
    here = set(DECLARED.findall(code)) | {it.strip() for _, items in IMPORTED.findall(code) for it in items.split(",")}
    return {k: v for k, v in table.items() if v != k + "_lem" or k in here}


def turn_words(text, table):
    def one(m):
        bare = m[0].rstrip("'")
        new = table.get(m[0]) or (table[bare] + m[0][len(bare):] if bare in table else m[0])
        return m[0] if new == m[0] + "_lem" and text[m.start() - 1 : m.start()] == "." else new
    return WORD.sub(one, text)


def turn_names(text, declared):
    """Words of a page or of an edit, which the kit's script leaves: those whose new spelling is a name of ours."""
    return WORD.sub(lambda m: turned(m[0]) if turned(m[0]) in declared else m[0], text)


def turn_spans(text, table):
    return SPAN.sub(lambda m: turn_words(m[0][1:-1], table).join("``"), text)


def turn_comment(text, table):
    """A comment's code spans, and its bare words that no prose has: those with a hump."""
    return turn_words(turn_spans(text, table), {k: v for k, v in table.items() if re.search("[a-z][A-Z]", k)})


def turn_antt(text, table):
    out, at = [], 0
    for m in QUIET.finditer(text):
        quiet = turn_comment(m[0], table) if m[0].startswith("--") else m[0]
        out += [turn_words(text[at:m.start()], table), quiet]
        at = m.end()
    return "".join(out) + turn_words(text[at:], table)


def turn_rt(text, table):
    pieces = [m.span() for m in GHOST_USE.finditer(text)]
    for m in CLAUSE.finditer(text):
        depth, i = 0, m.end()
        while True:
            depth += {"{": 1, "}": -1}.get(text[i], 0)
            i += 1
            if not depth:
                break
        pieces.append((m.end(), i))
    for start, end in sorted(pieces, reverse=True):
        text = text[:start] + turn_words(text[start:end], table) + text[end:]
    return re.sub(r"(?m)//.*$", lambda m: turn_comment(m[0], table), text)


def main():
    if not os.path.isdir("crates"):
        sys.exit("run it at the top of the repository")
    texts = {f: open(f, encoding="utf-8").read() for f in antt_files()}
    table = names(texts)
    met = fall_together(texts, table)
    if met:
        print("\n".join(sorted(f"{p}: {w} would be {table[w]}" for p, w in met)))
        sys.exit(f"{len(met)} names would fall together: nothing was written")
    out = {f: turn_antt(t, in_this_file(t, table)) for f, t in texts.items()}
    declared = {n for t in out.values() for n in DECLARED.findall(QUIET.sub('""', t))}
    for f in sorted(glob.glob("crates/*/src/**/*.rt", recursive=True)):
        texts[f] = open(f, encoding="utf-8").read()
        out[f] = turn_rt(texts[f], table)
    for f in ["README.md"] + sorted(glob.glob("docs/**/*.md", recursive=True) + glob.glob("*/README.md")):
        texts[f] = open(f, encoding="utf-8").read()
        out[f] = SPAN.sub(lambda m: turn_names(turn_words(m[0][1:-1], table), declared).join("``"), texts[f])
    for f in sorted(glob.glob("crates/*/must-fail/*.edit")):
        texts[f] = open(f, encoding="utf-8").read()
        out[f] = re.sub(r"(?m)^((?:old|new): ?)(.*)$", lambda m: m[1] + turn_names(turn_words(m[2], table), declared), texts[f])
    changed = [f for f in out if out[f] != texts[f]]
    for f in changed:
        with open(f, "w", encoding="utf-8") as to:
            to.write(out[f])
    print(f"{len(table)} names, {len(changed)} files")


if __name__ == "__main__":
    main()
