#!/usr/bin/env python3
"""Respells the repository's own definitions, lemmas and record fields: partLine and line-is become part_line and line_is, Exactly-files ExactlyFiles.

usage: python3 tools/respell-names.py     at the top of the repository, once, after the kit's own port script

Goals and steps that the kit names (behind goal. or c., and what Answers and Invariants declare for them) stay, and so do functions of src/ and all strings.
A line that begins 'look:' names two spellings that would fall together in one file; nothing is written then.
"""
import os
import re
import sys

DECLARED = re.compile(r"^( *)((?:(?:pub|abbrev|unfoldable|data|record|ruleset) )*)(\S+)((?: (?:\{[^{}\n]*\}|\([^()\n]*\)))*) :(?= |$)")
RECORD = re.compile(r"^( *)(?:pub )?record ")
TOKEN = re.compile(r"[^\s(){}.;,@\"«»\[\]|]+")
ANSWERS = re.compile(r"/proofs/(.*/)?(Answers|Invariants|Proof)\.antt$")
USE = re.compile(r"\buse (Rattle\.(?:std|core)[^\s;{]*)\.\{([^}]*)\}")
# Lemmas that would fall together with the definition that they are about, and two that the kit's script brought there.
APART = {
    "act-blocks": "act_blocks_hold",
    "body-check": "body_check_is",
    "check-of": "check_of_is",
    "job-told": "job_is_told",
    "label-byte": "label_byte_is",
    "lay-answer": "lay_answer_is",
    "line-count": "line_count_is",
    "no-acts": "no_acts_hold",
    "part-at": "part_at_byte",
    "part-count": "part_count_is",
    "row-end": "row_end_is",
    "sign-count": "sign_count_is",
    "sign-held": "sign_is_held",
    "undo-answer": "undo_answer_is",
    "whole-file": "whole_file_is",
}
FIRST = {
    "crates/session/proofs/Steps.antt": {"in_bounds": "bounds_hold"},
    "crates/numbering/proofs/Jobs.antt": {"pair_place": "pair_place_inside"},
}
GENERATED = re.compile(r"\buse \S*(?:Goals|Given)(?:\.\{[^}]*\})?")


def files(suffixes):
    for folder, folders, names in os.walk("crates"):
        folders[:] = sorted(f for f in folders if f != "out")
        for name in sorted(names):
            if name.endswith(suffixes):
                yield os.path.join(folder, name)


def read(path):
    with open(path, encoding="utf-8") as f:
        text = f.read()
    for old, new in FIRST.get(path, {}).items():
        text = re.sub(rf"(?<![^\s(){{}}.;,]){re.escape(old)}(?![^\s(){{}}.;,])", new, text)
    return text


def spelled(name):
    if name[0].isupper():
        return "".join(w[:1].upper() + w[1:] for w in name.split("-"))
    return re.sub(r"(?<=[a-z0-9])[A-Z]", lambda m: "_" + m[0].lower(), name).replace("-", "_")


def declared():
    """All declared names, and those that are fields of records."""
    names, fields = set(), set()
    for path in files(".antt"):
        if ANSWERS.search(path) and not re.search(r"/proofs/[^/]*\.antt$", path):
            continue
        record = None
        for line in read(path).split("\n"):
            line = re.sub(r"--.*", "", line)
            if not line.strip():
                continue
            indent = len(line) - len(line.lstrip())
            if record is not None and indent <= record:
                record = None
            found = RECORD.match(line)
            it = DECLARED.match(line)
            if it:
                names.add(it[3])
                if record is not None:
                    fields.add(it[3])
            if found:
                record = len(found[1])
    return names, fields


def local_to_answers():
    """Lemmas that an answer file declares for itself: not goals, whose signature is goal.NAME or need.NAME."""
    names = set()
    for path in files(".antt"):
        if not ANSWERS.search(path):
            continue
        for line in read(path).split("\n"):
            it = DECLARED.match(re.sub(r"--.*", "", line))
            if it and not re.search(r":\s*(?:goal|need)\.", line):
                names.add(it[3])
    return names


def turn_line(line, table, fields, kept, in_answers):
    out, at = [], 0
    for it in TOKEN.finditer(line):
        word = it[0]
        new = table.get(word)
        if new is None or word in kept:
            continue
        if line[it.start() - 1 : it.start()] == ".":
            head = re.search(r"([^\s(){};,@\"«»\[\]|]+)\.$", line[: it.start()])
            path = head[1].split(".") if head else []
            of_module = bool(path) and path[-1][:1].isupper()
            if path[:1] == ["goal"] or not (word in fields or of_module):
                continue
        out.append(line[at : it.start()] + new)
        at = it.end()
    return "".join(out) + line[at:]


def turn_antt(text, path, table, fields):
    kept = {w for it in USE.finditer(text) for w in re.findall(r"[^\s,{}]+", it[2])}
    in_answers = bool(ANSWERS.search(path))
    lines = []
    for line in text.split("\n"):
        cut = line.find("--")
        while cut > 0 and line[cut - 1] not in " \t":
            cut = line.find("--", cut + 2)
        code, note = (line, "") if cut < 0 else (line[:cut], line[cut:])
        if not GENERATED.search(code):
            code = turn_line(code, table, fields, kept, in_answers)
        lines.append(code + turn_camel(note, table))
    return "\n".join(lines)


def turn_camel(text, table):
    """In notes and pages only names that no English word is like."""
    return re.sub(r"(?<![\w-])[a-z][a-z0-9]*[A-Z]\w*(?![\w-])", lambda m: table.get(m[0], m[0]), text)


def turn_rt(text, table):
    def turned(line):
        parts = re.split(r'("(?:[^"\\]|\\.)*")', line)
        return "".join(p if p.startswith('"') else re.sub(r"(?<![\w-])[A-Za-z][\w-]*\w(?![\w-])", lambda m: table.get(m[0], m[0]), p) for p in parts)

    return "\n".join(turn_camel(line, table) if line.lstrip().startswith("//") else turned(line) for line in text.split("\n"))


def main():
    names, fields = declared()
    names |= local_to_answers()
    table = {n: APART.get(n, spelled(n)) for n in names if spelled(n) != n}
    clash = False
    meant = {}
    for old, new in sorted(table.items()):
        if new in meant:
            print(f"look: {old} and {meant[new]} would fall together as {new}")
            clash = True
        meant[new] = old
    for old, new in sorted(table.items()):
        if new in names:
            print(f"look: {old} would fall together with the declared {new}")
            clash = True
    turned = {}
    for path in files((".antt", ".rt", ".edit")):
        text = read(path)
        new = turn_antt(text, path, table, fields) if path.endswith(".antt") else turn_rt(text, table)
        if path.endswith(".antt"):
            words = set(TOKEN.findall(re.sub(r"--.*|Rattle\.\w+\.proofs[^\s{]*", "", text)))
            for old in sorted(words & set(table)):
                if table[old] in words:
                    print(f"look: {path}: has {old} and {table[old]}")
                    clash = clash or "--anyway" not in sys.argv
        if new != text:
            turned[path] = new
    for path in ["README.md"] + [os.path.join("docs", f) for f in sorted(os.listdir("docs"))]:
        text = read(path)
        if turn_camel(text, table) != text:
            turned[path] = turn_camel(text, table)
    if clash:
        raise SystemExit(1)
    for path, text in turned.items():
        with open(path, "w", encoding="utf-8") as f:
            f.write(text)
    print(f"{len(table)} names, {len(turned)} files")


main()
