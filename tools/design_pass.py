#!/usr/bin/env python3
"""Counts the places of docs/DESIGN-PASS.md in crates/*/src, point by point: python3 tools/design_pass.py [POINT]

Run at the top of a checkout. Each line is a place: file, line, text. Which of them are places of the point, and which are
not, the page says; this script only finds what a reader has to look at. Point 2 is found by ../shared/tools/alike too; points 7 and 8 are read and not found by a script."""
import collections
import glob
import re
import sys

FILES = sorted(glob.glob("crates/*/src/*.rt"))


def lines(pattern):
    """Every line of src that matches."""
    found = []
    for name in FILES:
        for number, line in enumerate(open(name), 1):
            if re.search(pattern, line):
                found.append(f"{name}:{number}: {line.strip()}")
    return found


def functions():
    """Every function of src: its place, its name, its parameters and what it asks for."""
    for name in FILES:
        text = open(name).read().split("\n")
        for i, line in enumerate(text):
            match = re.match(r" *(?:pub(?:\(crate\))? )?(?:extern \"C\" )?fn (\w+)", line)
            if not match:
                continue
            end = next(k for k in range(i, len(text)) if text[k].rstrip().endswith("{") or text[k].strip() == "{")
            head = text[i : end + 1]
            first_clause = next((k for k, l in enumerate(head) if re.match(r" +(requires|ensures)", l)), len(head))
            parameters = re.findall(r"(\w+): ", " ".join(head[:first_clause]).split("->")[0])
            asks = [m.group(1) for l in head if (m := re.match(r" +requires (?:\w+ )?\{ (.*) \}$", l))]
            yield f"{name}:{i + 1}", match.group(1), parameters, asks


def same_name():
    """Functions of one name in two or more files."""
    places = collections.defaultdict(list)
    for place, name, _, _ in functions():
        places[name].append(place)
    return [f"{name}: {', '.join(found)}" for name, found in sorted(places.items()) if len({p.split(':')[0] for p in found}) > 1]


def together():
    """Pairs of parameters that three or more functions have, with how many do."""
    count = collections.Counter()
    for _, _, parameters, _ in functions():
        for i, first in enumerate(parameters):
            for second in parameters[i + 1:]:
                count[first, second] += 1
    return [f"{n} functions take {a}, {b}" for (a, b), n in count.most_common() if n >= 3]


def asked():
    """Facts that three or more functions ask for, with how many do."""
    count = collections.Counter()
    for _, _, _, requires in functions():
        for clause in requires:
            for fact in re.split(r" × ", clause):
                count[re.sub(r"\.(old|now|new)\b", "", fact).strip("()")] += 1
    return [f"{n} functions ask for {fact}" for fact, n in count.most_common() if n >= 3]


POINTS = {
    "1 enums": lambda: lines(r"^\s*(pub(\(crate\))? )?enum "),
    "1 flags": lambda: lines(r"^\s*(pub(\(crate\))? )?\w+: bool,"),
    "1 numbers": lambda: lines(r"^\s*(pub(\(crate\))? )?const [A-Z_]+: (u8|u16|u64|usize) = [^;]*;"),
    "2 one name": same_name,
    "3 loops": lambda: lines(r"^\s*('\w+: )?(while|loop)\b"),
    "4 conversions": lambda: lines(r"fn (\w+_of|number|position|copy\w*|larger|lesser|numbered|tell\w*|put_\w+|eq|cmp|fmt|from|try_from)\b"),
    "4 derives": lambda: lines(r"#\[derive\(Clone, Copy\)\]"),
    "5 facts": asked,
    "5 parameters": together,
    "6 buffers": lambda: lines(r"fn \w+.*\b(at|count|first|n|k|from): usize.*&mut \[|fn \w+.*&mut \[.*\b(at|count|first|n|k|from): usize"),
}

for point, find in POINTS.items():
    if len(sys.argv) > 1 and not point.startswith(sys.argv[1]):
        continue
    places = find()
    print(f"== {point}: {len(places)}")
    for place in places:
        print("   " + place)
