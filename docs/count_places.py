#!/usr/bin/env python3
"""Lists the places that docs/DESIGN-PASS.md counts, point by point. Run it at the top of the repository; with a number it lists that point alone.

It finds candidates by their spelling; the page says which of them are places of a point. Tests are left out, but for twins."""
import glob
import itertools
import re
import sys
from collections import defaultdict

FILES = sorted(glob.glob("crates/*/src/**/*.rt", recursive=True))
PROOFS = sorted(glob.glob("crates/*/proofs/**/Answers.antt", recursive=True))
SOURCES = {f: open(f).read() for f in FILES}


def is_test(f):
    return "/tests" in f


def lines(*patterns):
    found = []
    for f, text in SOURCES.items():
        if is_test(f):
            continue
        for i, line in enumerate(text.splitlines(), 1):
            code = line.split("//")[0]
            if any(re.search(p, code) for p in patterns):
                found.append(f"{f}:{i}: {line.strip()}")
    return found


def functions():
    for f, text in SOURCES.items():
        text = re.sub(r"//.*", "", text)
        for m in re.finditer(r"\bfn (\w+)((?:<[^(]*>)?\()([^{}]*?)\)(?:\s*->[^{}]*?)?\s*?(?:\n\s+(?:requires|ensures)[^\n]*)*\s*\{\n(.*?)\n(?=\s*\}\n\s*(?:\n|\}|pub|fn|$))", text, re.S):
            yield f, m.group(1), m.group(3), m.group(4)


KEPT_WORDS = set("for in if else match return let mut while Some None Ok Err self true false as _".split())


def twins():
    shapes = defaultdict(list)
    for f, name, _, body in functions():
        words = re.findall(r"[A-Za-z_]\w*|'.'|\"[^\"]*\"|\d\w*|\S", body)
        shape = " ".join(w if w in KEPT_WORDS or not re.match(r"[\w'\"]", w) else "x" for w in words)
        if len(words) >= 12:
            shapes[shape].append(f"{f}:{name}")
    return ["; ".join(v) for v in shapes.values() if len(v) > 1]


def repeated_facts():
    where = defaultdict(set)
    for f, text in SOURCES.items():
        for line in text.splitlines():
            m = re.match(r"\s*(?:requires|ensures|ghost)(?: [a-z_]+)?:? \{(.*)\}", line)
            if m:
                where[m.group(1).strip()].add(line + f + str(len(where)))
    found = [f"{len(v)} times: {k}" for k, v in where.items() if len(v) >= 3]
    together = defaultdict(list)
    for f, name, parameters, _ in functions():
        ps = [re.sub(r"\s+", " ", p.strip()) for p in parameters.split(",")]
        ps = [p for p in ps if p and "self" not in p]
        for n in range(3, len(ps) + 1):
            for some in itertools.combinations(ps, n):
                together[some].append(f"{f.split('/')[1]}::{name}")
    largest = []
    for some, fs in sorted(together.items(), key=lambda kv: (-len(kv[1]), -len(kv[0]))):
        if len(fs) >= 3 and not any(set(some) <= set(k) and len(fs) <= len(v) for k, v in largest):
            largest.append((some, fs))
    return found + [f"{len(v)} functions: ({', '.join(k)}): {', '.join(v)}" for k, v in largest]


def parallel_arrays():
    found = []
    for f, text in SOURCES.items():
        for m in re.finditer(r"struct (\w+)[^{;]*\{(.*?)\n\}", text, re.S):
            arrays = re.findall(r"\n\s*(?:pub(?:\([a-z]+\))? )?(\w+): (?:&'a mut )?\[", m.group(2))
            if len(arrays) > 1 or (arrays and re.search(r"count: usize", m.group(2))):
                found.append(f"{f}: {m.group(1)}: {', '.join(arrays)}")
    return found


def answers():
    return [f"{f}: {len(re.findall(r'^pub [^:]*:', open(f).read(), re.M))} answers" for f in PROOFS]


POINTS = {
    1: ("shapes of Option and Result, flags, numbers for kinds", lambda: lines(r"^(pub(\(\w+\))? )?enum ", r"Option<\w*Fault>", r"Result<[^()]*, *(usize|u8|u32|u64|bool)>", r"layer: char|number: u8", r"unwrap_or\(0\)|\(\w+\) => 0", r"IDLE", r"^\s*(pub )?\w+: bool,")),
    2: ("twins: functions whose bodies have one shape", twins),
    3: ("loops that count", lambda: lines(r"\bfor .* in .*\.\.", r"\bwhile .*<")),
    4: ("equality, order, copying, conversion and printing by hand", lambda: lines(r"impl.* (fmt::Display|Clone|PartialEq|PartialOrd|Ord) for", r"fn (is|is_first|in_same_place|push_number|carried)\b", r"None => None|Ok\(\(\)\) => Ok|Ok\(_\) => None", r" as (u8|u32|u64|usize)\b")),
    5: ("repeated facts, and parameters that travel together", repeated_facts),
    6: ("parallel arrays, and an array with a count beside it", lambda: parallel_arrays() + lines(r"\[\w+; \d+\], count|; \d+\]>.*count")),
    7: ("switches on a step, tables of functions", lambda: lines(r"match letter|match call\b|\bdyn |\bfn\(")),
    8: ("answers written for the check", answers),
}

for number, (title, find) in POINTS.items():
    if len(sys.argv) > 1 and sys.argv[1] != str(number):
        continue
    places = find()
    total = sum(int(p.rsplit(" ", 2)[1]) for p in places) if number == 8 else len(places)
    print(f"point {number}, {title}: {total}")
    if len(sys.argv) > 1:
        print("\n".join("  " + p for p in places))
