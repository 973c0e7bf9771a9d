#!/usr/bin/env python3
"""Lists the places in crates/*/src (and crates/*/proofs) that docs/DESIGN-PASS.md counts, point by point.

usage: tools/count_places.py [FOLDER] [--list [POINT]]

FOLDER is the top of a checkout, this one where it is left out. With --list each place is printed, with its file and line;
without it, a line for each kind of place and a total for each point. A pattern finds places to look at: whether one is to be
changed is judged by reading, and the page says how each was judged.
"""
import collections
import difflib
import glob
import os
import re
import sys

NUMBER = r"(?:u8|u16|u32|u64|usize)"

# For each point: what is counted, and the pattern of the line where it stands.
LINE_PATTERNS = [
    ("1", "own enums that are no refusal, error or failure (read for the shape of Option or Result)",
     r"^\s*(?:pub(?:\([a-z]+\))? )?enum (?!\w*(?:Refusal|Error|Failure|Obstacle|Unbuilt)\b)\w+"),
    ("1", "arms that hand an Option or a Result on, case by case",
     r"^\s*(?:Err\((?:\w+|_)\) => (?:return )?Err\(|None => (?:return )?(?:None|Err\(|Ok\(None)"
     r"|Ok\((?:\(\)|\w+)\) => Ok\(|Some\(\w+\) => (?:Some|Ok)\()"),
    ("1", "a let with else that only returns None or the error of what it tested",
     r"^\s*let (?:Some|Ok)\(\w+\) = .* else \{$(?=\n\s*return (?:None|Err\())"),
    ("1", "numbers for kinds or refusals, in fields and variants",
     r"^\s*(?:pub )?(?:number|refusal|code|kind): u8,|\{[^}]*\bnumber: u8\b|\((?:\w+, )?u8, u16\)"),
    ("1", "flags in structs", r"^\s*(?:pub(?:\([a-z]+\))? )?\w+: bool,"),
    ("3", "for over a range of numbers", r"^\s*for \w+ in [^{]*\.\.[^{]*\{"),
    ("3", "while and loop", r"^\s*(?:while|loop)\b"),
    ("3", "for that searches: its body returns true, false, Some, None or a refusal",
     r"^\s*for (?![^{]*\.\.)[^{]*\{$(?=(?:\n[^\n]*){1,2}\n?\s*return (?:true|false|Some|None|Err))"),
    ("4", "equality and order by hand",
     r"fn \w*(?:is_)?same\w*\(|impl Same for|trait Same|fn \w+\((?:self|\w+: (?:Event|Line|Side|Name)), \w+: \w+\) -> bool"),
    ("4", "conversion by hand: one small value in, another out",
     r"fn (?:new\(number: u16\)|number\(self\) -> u16|side_byte|record_of\(race|of\(event|bottom_of|kind_of|number_of\(word)"),
    ("4", "printing by hand: words made of a value",
     r"fn \w*words\w*(?:<[^>]*>)?\(|-> &'static str"),
    ("5", "a chart and a delivery side by side in parameters", r"chart: &Chart,\s+delivery: &(?:mut )?D\b"),
    ("5", "the rest of a text and the whole length side by side", r"rest: &(?:'a )?\[u8\],\s+whole: usize"),
    ("5", "a word and its place side by side", r"word: &\[u8\],\s+at: usize"),
    ("5", "a buffer and a place in it side by side", r"buffer: &mut \[u8\],\s+at: usize"),
    ("5", "a bench and a pool of slips side by side", r"bench: &mut Bench<D>,\s+slips: &(?:mut )?Vec<Slip>"),
    ("5", "a program's chart, wiring and events side by side", r"chart: &Chart,\s+(?:wiring: &Wiring,\s+events|bench: &mut Bench<D>,\s+event)"),
    ("5", "a program's heap and chart side by side", r"heap: Global,\s+chart: &Chart"),
    ("6", "arrays of fixed length in types", r"^\s*(?:pub(?:\([a-z]+\))? )?(?:struct \w+\(pub )?\w*:? ?\[\w+; \w+\]\)?[,;]$"),
    ("6", "a length or a count beside a buffer, in types", r"^\s*(?:pub(?:\([a-z]+\))? )?(?:len|length|count|used): usize,"),
    ("7", "a match whose arms choose the function to call",
     r"^\s*\w+(?:::\w+)+(?:\(\w+\))? => \w+(?:::\w+)?(?:\.\w+)?\((?:[^()]|\([^()]*\))*\),$(?=\n\s*\w+(?:::\w+)+(?:\(\w+\))? => \w+)"),
]


def sources(root):
    return sorted(glob.glob(os.path.join(root, "crates/*/src/**/*.rt"), recursive=True))


def by_pattern(root):
    for point, what, pattern in LINE_PATTERNS:
        found = []
        for path in sources(root):
            text = open(path, encoding="utf-8").read()
            for match in re.finditer(pattern, text, re.M):
                line = text.count("\n", 0, match.start()) + 1
                first = match.group(0).strip().split("\n")[0]
                found.append((os.path.relpath(path, root), line, first))
        yield point, what, found


ITEM = re.compile(r"^( *)(?:pub(?:\([a-z]+\))? )?(?:fn|struct|enum) (\w+)", re.M)
TOKEN = re.compile(r"//[^\n]*|[A-Za-z_]\w*|\d+|\"[^\"]*\"|\S")
KEPT_WORDS = set("fn let mut for in if else match return while loop struct enum true false Ok Err Some None self".split())


def shape(text):
    """The tokens of an item with names, numbers and texts taken off; clauses and comments do not count."""
    code = re.sub(r"^\s*(?:requires|ensures)\b.*$", "", text, flags=re.M)
    tokens = [t for t in TOKEN.findall(code) if not t.startswith("//")]
    return tuple(t if t in KEPT_WORDS or not re.match(r"[\w\"]", t) else "_" for t in tokens)


def items(root):
    """Functions and types, each with its place, name and shape; but for the methods of traits, which are alike on purpose."""
    for path in sources(root):
        text = open(path, encoding="utf-8").read()
        traits = [(m.start(), m.end()) for m in re.finditer(r"^(?:pub )?(?:impl\b[^{\n]* for |trait )[^\n]*\{\n.*?^\}", text, re.M | re.S)]
        for match in ITEM.finditer(text):
            if any(start <= match.start() < end for start, end in traits):
                continue
            end = re.search(r"^%s(?:\}|\S.*;$)|;$" % match.group(1), text[match.start():], re.M)
            body = text[match.start():match.start() + (end.end() if end else 0)]
            line = text.count("\n", 0, match.start()) + 1
            place = (os.path.relpath(path, root), line, body.strip().split("\n")[0])
            yield place, match.group(2), shape(body)


def twins(root):
    """Point 2: items of one shape, and items of one name that are nearly of one shape."""
    shapes, names = collections.defaultdict(list), collections.defaultdict(list)
    for place, name, form in items(root):
        if len(form) >= 30:
            shapes[form].append(place)
        if len(form) >= 12:
            names[name].append((place, form))
    alike = [group for group in shapes.values() if len(group) > 1]
    yield "2", "functions and types of one shape, but for names, numbers and types", [p for g in alike for p in g]
    near = []
    for name, group in sorted(names.items()):
        near += [
            place for place, form in group
            if any(form != other and difflib.SequenceMatcher(None, form, other).ratio() > 0.8 for _, other in group)
        ]
    yield "2", "functions and types of one name that are nearly of one shape", near


def repeated_clauses(root):
    """Point 5: a clause that stands in three or more functions of one file's crate."""
    clauses = collections.defaultdict(list)
    for path in sources(root):
        crate = os.path.relpath(path, root).split(os.sep)[1]
        for number, line in enumerate(open(path, encoding="utf-8"), 1):
            clause = re.match(r"\s*(requires|ensures)(?: \w+)? (\{.*\})\s*$", line)
            if clause:
                text = re.sub(r"\b(?:self|bench|slips|first|second|message)\b", "_", clause.group(2))
                clauses[crate, clause.group(1), text].append((os.path.relpath(path, root), number, line.strip()))
    found = [places[0] for _, places in sorted(clauses.items()) if len(places) >= 3]
    yield "5", "clauses that stand in three or more functions of a crate (the first of each)", found


def proofs(root):
    """Point 8: what is proved by hand."""
    files = sorted(glob.glob(os.path.join(root, "crates/*/proofs/**/*.antt"), recursive=True))
    answers = [f for f in files if os.path.basename(f) in ("Answers.antt", "Invariants.antt", "Proof.antt")]
    yield "8", "files with answers and invariants", [(os.path.relpath(f, root), 1, "") for f in answers]
    lemmas = [f for f in files if f not in answers]
    yield "8", "lines of lemmas", [(os.path.relpath(f, root), n, "") for f in lemmas for n, _ in enumerate(open(f), 1)]


def main(words):
    wanted = None
    listing = "--list" in words
    if listing:
        at = words.index("--list")
        wanted = words[at + 1] if at + 1 < len(words) else None
        words = words[:at]
    root = words[0] if words else os.path.join(os.path.dirname(os.path.abspath(__file__)), "..")
    rows = sorted([*by_pattern(root), *twins(root), *repeated_clauses(root), *proofs(root)], key=lambda row: row[0])
    for point, what, found in rows:
        if wanted and point != wanted:
            continue
        print(f"{point}  {len(found):5}  {what}")
        if listing and point != "8":
            for path, line, text in found:
                print(f"      {path}:{line}: {text}")


if __name__ == "__main__":
    main(sys.argv[1:])
