#!/usr/bin/env python3
"""Counts the older forms in crates/*/src and crates/*/proofs, point by point (docs/DESIGN-PASS.md).

usage: tools/count_forms.py [ROOT] [--list POINT]   ROOT is a checkout, by default this one
"""
import collections
import glob
import os
import re
import sys

args = sys.argv[1:]
shown = None
if "--list" in args:
    k = args.index("--list")
    shown = args[k + 1]
    del args[k:k + 2]
root = args[0] if args else os.path.join(os.path.dirname(os.path.abspath(__file__)), "..")

FUNCTION = re.compile(r"^[ ]*(?:pub(?:\([a-z]+\))? )?(?:extern \"C\" )?fn (\w+)(?:<[^>]*>)?\((.*?)\n?\)(.*?)^[ ]*\{\n(.*?)^[ ]*\}$", re.S | re.M)
FUNCTION = re.compile(r"^(?:pub(?:\([a-z]+\))? )?(?:extern \"C\" )?fn (\w+)(?:<[^\n]*?>)?\((.*?)\)(?=[ \n])(.*?)^\{\n(.*?)^\}$", re.S | re.M)


def files(pattern):
    return sorted(glob.glob(os.path.join(root, "crates", "*", pattern), recursive=True))


def crate(path):
    return path.split("/crates/")[1].split("/")[0]


sources = {p: open(p).read() for p in files("src/*.rt")}
functions = []  # crate, name, parameters, contract, body
for path, text in sources.items():
    code = re.sub(r"//[^\n]*", "", text)
    for m in FUNCTION.finditer(code):
        functions.append((crate(path), m.group(1), " ".join(m.group(2).split()), m.group(3), m.group(4)))


def enums():
    """1: enums of the repository, and numbers for kinds in parameters"""
    for path, text in sources.items():
        for m in re.finditer(r"^pub enum (\w+) \{(.*?)^\}", text, re.S | re.M):
            variants = re.findall(r"^    (\w+)", m.group(2), re.M)
            yield f"{crate(path)}::{m.group(1)} {{ {', '.join(variants)} }}"
    for c, f, ps, _, _ in functions:
        for p in re.findall(r"\b((?:code|tag|id|operand|number|p|q|m): u(?:8|32))\b", ps):
            yield f"{c}::{f} takes {p}"


def twins():
    """2: functions of one shape: the same text once names, numbers and types are taken out"""
    shapes = collections.defaultdict(list)
    for c, f, ps, _, body in functions:
        words = re.findall(r"[A-Za-z_]\w*|\d+|[^\sA-Za-z_]", body)
        keep = {"let", "mut", "if", "else", "while", "for", "in", "return", "match", "break", "continue", "true", "false", "as"}
        shape = " ".join(w if w in keep or not re.match(r"[A-Za-z_\d]", w) else "x" for w in words)
        if len(words) >= 12:
            shapes[shape].append(f"{c}::{f}")
    for shape, group in shapes.items():
        if len(group) > 1:
            yield " = ".join(group)


def loops():
    """3: while loops that count an index by hand"""
    for c, f, _, _, body in functions:
        for m in re.finditer(r"^( *)(?:'\w+: )?while (.*?) \{\n(.*?)^\1\}", body, re.S | re.M):
            counted = re.search(r"^ *(\w+) [+-]= \d+;", m.group(3), re.M)
            if counted and re.search(rf"\b{counted.group(1)}\b", m.group(2)):
                yield f"{c}::{f}: while {m.group(2)}"


def by_hand():
    """4: conversions, comparisons and tests by hand: a match or a chain of ifs whose every arm is a constant, or an if that returns before a last true or false"""
    for c, f, ps, contract, body in functions:
        constant = r"(?:true|false|\w+::\w+)"
        arms = re.findall(r"=> (.+?),?\n", body)
        if "match" in body and arms and all(re.fullmatch(constant, a.strip()) for a in arms) and body.count("match") == 1:
            yield f"{c}::{f}: match with constant arms"
        elif "-> bool" in contract and re.search(r"^    (?:true|false)\n\Z", body, re.M) and "while" not in body and "for " not in body:
            yield f"{c}::{f}: ifs that end in a constant"
        elif re.fullmatch(r"\s*if \w[^\n]*\{\n\s*return [^\n]*;\n\s*\}\n\s*[^\n]*\n", body) and "-> bool" in contract:
            yield f"{c}::{f}: if and return"


def facts():
    """5: a definition in the requires of three or more functions, and functions of eight or more parameters"""
    used = collections.defaultdict(set)
    for c, f, ps, contract, _ in functions:
        for clause in re.findall(r"requires[^{]*\{(.*?)\}\n", contract + "\n", re.S):
            for w in re.findall(r"\b([A-Z]\w+)\b", clause):
                used[w].add(f"{c}::{f}")
    for w, fs in sorted(used.items(), key=lambda x: -len(x[1])):
        if len(fs) >= 3:
            yield f"{w} in {len(fs)} functions"
    for c, f, ps, _, _ in functions:
        n = len([p for p in re.split(r",(?![^<(\[]*[>)\]])", ps) if p.strip()])
        if n >= 8:
            yield f"{c}::{f} has {n} parameters"


def arrays():
    """6: arrays side by side, and a length beside a buffer, in parameters"""
    for c, f, ps, _, _ in functions:
        names = re.findall(r"(\w+): &(?:mut )?\[", ps)
        pairs = [p for p in (("num", "den"), ("lines", "terms"), ("numbers", "weights"), ("boxes", ""), ("ends", "")) if set(x for x in p if x) <= set(names)]
        if any(p[0] in ("num", "lines", "numbers") for p in pairs):
            yield f"{c}::{f}: {', '.join(names)}"
        elif re.search(r"\w+_boxes: &|\bboxes: &", ps) and re.search(r"\[i32\]", ps):
            yield f"{c}::{f}: {', '.join(names)}"


def switches():
    """7: a parameter that says which step to run"""
    for c, f, ps, _, body in functions:
        for p in re.findall(r"\b(yes|known|wanted|tag|code): (?:bool|u8|u32)", ps):
            if re.search(rf"\bif !?{p}\b", body) or re.search(rf"match {p}\b", body):
                yield f"{c}::{f} by {p}"


def proofs():
    """8: answers, and lines of them that stand twice or more in one file"""
    total = repeated = count = 0
    for p in files("proofs/*/Answers.antt"):
        text = open(p).read()
        count += 1
        lines = [l.strip() for l in text.split("\n") if l.strip().startswith("let ") and len(l.strip()) > 60]
        total += text.count("\n")
        again = sum(n for n in collections.Counter(lines).values() if n > 1)
        if again:
            repeated += again
            yield f"{p.split('/crates/')[1]}: {again} lines that stand more than once"
    yield f"in all {count} files of answers with {total} lines, {repeated} of them repeated"


points = {"1": enums, "2": twins, "3": loops, "4": by_hand, "5": facts, "6": arrays, "7": switches, "8": proofs}
for key, point in points.items():
    found = list(point())
    n = len(found) - (1 if key == "8" else 0)
    print(f"{key}: {n}  ({point.__doc__[3:]})" + (f"; {found[-1]}" if key == "8" else ""))
    if shown in (key, "all"):
        for place in found:
            print(f"    {place}")
print(f"functions: {len(functions)}")
