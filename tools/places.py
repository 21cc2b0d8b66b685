#!/usr/bin/env python3
"""Counts, point by point, the places of src/ that a design pass looks at, and lists each: python3 tools/places.py [POINT..]"""
import collections
import pathlib
import re
import sys

SOURCES = sorted(pathlib.Path("crates").glob("*/src/**/*.rt"))
FUNCTION = re.compile(r"^( *)(?:pub(?:\(crate\))? )?fn (\w+)", re.M)


class Function:
    def __init__(self, path, text, match):
        self.path, self.name, indent = path, match.group(2), match.group(1)
        rest = text[match.start():]
        end = re.search(rf"^{indent}(?:\}}|\S.*;)$", rest, re.M)
        rest = rest[:end.end()] if end else rest
        body = re.search(rf"^{indent}\{{\n|(?<=\S) \{{\n", rest, re.M)
        self.head = rest[:body.start()] if body else rest
        self.body = rest[body.end():] if body else ""
        self.line = text[:match.start()].count("\n") + 1

    def where(self):
        return f"{self.path}:{self.line} {self.name}"

    def clauses(self):
        return [c.strip() for c in re.findall(r"(?:requires|ensures)(?: \w+)? \{(.*)\}", self.head)]

    def parameters(self):
        signature = re.split(r"\n *(?:requires|ensures)", self.head)[0]
        return re.findall(r"(?:mut )?(\w+): ((?:[^,()]|\([^)]*\))+)", signature.split("(", 1)[-1].rsplit(")", 1)[0])


def functions():
    for path in SOURCES:
        text = path.read_text()
        for match in FUNCTION.finditer(text):
            yield Function(path, text, match)


def lines(*patterns):
    for path in SOURCES:
        for number, line in enumerate(path.read_text().splitlines(), 1):
            if not line.lstrip().startswith("//") and any(re.search(p, line) for p in patterns):
                yield f"{path}:{number} {line.strip()}"


def blocks(pattern):
    for path in SOURCES:
        text = path.read_text()
        for match in re.finditer(pattern, text, re.M):
            yield f"{path}:{text[:match.start()].count(chr(10)) + 1} {' '.join(match.group(0).split())}"


def point_1():
    """own enums like Option or Result, flags beside values, numbers for kinds and refusals"""
    errors = set(re.findall(r"Result<.*, (\w+)>", "\n".join(p.read_text() for p in SOURCES)))
    for place in blocks(r"pub enum \w+(?:<[^>]*>)? \{\n(?:\s*(?://|#\[).*\n)*\s*\w+\(.*\),\n(?:(?:\s*(?://|#\[).*\n)*\s*\w+(?:\(.*\))?,\n){1,2}\}"):
        if re.search(r"pub enum (\w+)", place).group(1) not in errors:
            yield place
    yield from blocks(r"if let Some\((\w+)\) = [^{;]*\{\s*return (?:Err|Some)\(")
    yield from blocks(r"(?:None => None|Some\((\w+)\) => Some\(\1\)|Ok\((\w+)\) => Ok\(\2\)|Ok\(_\) => None),")
    yield from blocks(r"else \{\s*(?:None|Some\([^)]*\)+)\s*\}")
    yield from blocks(r"^ *(?:\w+::)?\w+ => (?:Some\()?\d+\)?,(?:\n *(?:\w+::)?\w+ => (?:Some\()?\d+\)?,)+")
    yield from blocks(r"^ *\d+ => Some\(.*,(?:\n *\d+ => Some\(.*,)+")
    yield from lines(r"let mut \w+ = (?:false|true);", r"\belse \{ ?0 ?\}")


def shape(body):
    words = re.findall(r"\w+|[^\w\s]", re.sub(r"//.*", "", body))
    return " ".join("n" if re.match(r"\d", w) else "a" if re.match(r"[a-z_]\w*$", w) and w not in
                    {"if", "else", "for", "in", "match", "while", "let", "mut", "return", "self"} else w for w in words)


def point_2():
    """functions whose bodies differ only in names, types and numbers"""
    groups = collections.defaultdict(list)
    for function in functions():
        tokens = shape(function.body)
        if len(tokens.split()) >= 12:
            groups[re.sub(r"\b[A-Z]\w*", "T", tokens)].append(function)
    for group in groups.values():
        if len(group) > 1:
            yield " | ".join(f.where() for f in group)


def point_3():
    """loops that count an index, and loops that only look for one item"""
    for function in functions():
        if re.search(r"\b(?:for|while)\b", function.body) and re.search(
                r"for \w+ in (?:\d|\()\S*\.\.|\w+ [+-]= 1;|\{\s*return (?:true|false|i \+ 1|Some\(\w+\));\s*\}", function.body):
            yield function.where()


def point_4():
    """equality, order, copying, conversion and printing by hand"""
    yield from lines(r"^impl.* (?:PartialEq|Eq|PartialOrd|Ord|Clone|Copy|Debug|Default)(?:<.*>)? for ")
    yield from lines(r"^impl.* (?:fmt::Display|From<.*>) for (?:Refusal|Fault|Report|\w*Error)\b")
    yield from lines(r"\bas u8 <=?", r"\.value <=? ")
    yield from blocks(r"^ *(\w+)\.(\w+) == (\w+)\.\2\n(?: *&& \1\.(\w+) == \3\.\4\n)+")
    yield from lines(r"^    (?:pub )?fn (?:code|coded|number)\(.*\) -> ")


def point_5():
    """clauses that stand in three or more functions, and parameters that three or more functions take together"""
    clauses = collections.defaultdict(set)
    together = collections.defaultdict(set)
    for function in functions():
        for clause in function.clauses():
            if "result" not in clause:
                clauses[re.sub(r"\b\w+\.(?:now|old|new)\.(?=\w)|\.(?:now|old|new)\b|\.entry\b", "", clause)].add(function.where())
        names = sorted({name for name, kind in function.parameters() if name != "self"})
        for i, first in enumerate(names):
            for second in names[i + 1:]:
                together[(first, second)].add(function.where())
    for what, found in sorted(list(clauses.items()) + [(f"{a} with {b}", f) for (a, b), f in together.items()], key=str):
        if len(found) >= 3:
            yield f"{what}: {len(found)} functions: {', '.join(sorted(found))}"


def point_6():
    """a buffer with a length or a place beside it, parallel arrays, indices for links"""
    for function in functions():
        kinds = [kind for _, kind in function.parameters()]
        if any("[" in k for k in kinds) and any(k.strip() == "usize" for k in kinds):
            yield function.where()
    yield from blocks(r"pub struct \w+(?:<[^>]*>)? \{(?:[^}]*\[[^}]*\b\w+: (?:usize|u16),|[^}]*\b\w+: usize,[^}]*\[)[^}]*\}")
    yield from blocks(r"pub struct \w+(?:<[^>]*>)? \{[^}]*\bparent: u16[^}]*\}")


def point_7():
    """a switch on which step to run, tables of functions"""
    yield from lines(r"\bfn\(", r"\bdyn\b", r"match (?:step|kind|mode|phase)\b.*\{$")


def point_8():
    """answers, and lemmas of proofs/ that nothing cites"""
    texts = {p: p.read_text() for p in pathlib.Path("crates").glob("*/*/**/*.antt") if "/out/" not in str(p)}
    answers = sum(len(re.findall(r"^pub [\w-]+ :", t, re.M)) for p, t in texts.items() if p.name == "Answers.antt" and "proofs" in str(p))
    yield f"answers: {answers}, lines of proofs/: {sum(t.count(chr(10)) for p, t in texts.items() if '/proofs/' in str(p))}"
    whole = "\n".join(texts.values()) + "\n".join(p.read_text() for p in SOURCES)
    for path, text in sorted(texts.items()):
        if path.name not in ("Answers.antt", "Invariants.antt", "Lib.antt"):
            for name in re.findall(r"^ *(?:abbrev |unfoldable )?(?:pub )?([a-z][\w'-]*) :", text, re.M):
                word = rf"(?<![\w'-]){re.escape(name)}(?![\w'-])"
                if len(re.findall(word, whole)) == len(re.findall(rf"^ *(?:abbrev |unfoldable )?(?:pub )?{word}(?= :|.* =(?: |$))", text, re.M)):
                    yield f"{path} {name} is cited nowhere"


for number in sys.argv[1:] or "12345678":
    found = list(globals()[f"point_{number}"]())
    print(f"Point {number}, {globals()[f'point_{number}'].__doc__}: {len(found)}")
    for place in found:
        print("   ", place)
