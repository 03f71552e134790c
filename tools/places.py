"""Lists places in src/ where an older form of Rattle may stand, by the points of docs/DESIGN-PASS.md.

    python3 tools/places.py [FOLDER]

FOLDER is a checkout of this repository (the one that the script lies in, if none is given). Tests are passed over. Each line is a place to look
at, and not yet a fault: docs/DESIGN-PASS.md says of each whether it was changed or why it stays.
"""

import collections
import pathlib
import re
import sys

STAND_IN = [r"unwrap_or\(", r"unwrap_or_default\(", r"else \{\s*(?:0|true|false)\s*\}", r"(?:Err\(_\)|None) => 0"]
KEYWORDS = set("as break const continue else enum fn for if impl in let loop match mod mut pub ref return self Self struct use while".split())


def source(path):
    """A file's text without tests, comments and ghost lines."""
    text = path.read_text().split("#[cfg(test)]\nmod tests")[0]
    text = re.sub(r"//[^\n]*", "", text)
    return re.sub(r"^\s*ghost use [^;]*;", "", text, flags=re.M)


def functions(text):
    """Name, parameters, clauses and body of each function with a body."""
    found = []
    for start in re.finditer(r"\bfn (\w+)", text):
        at, depth, parens = start.end(), 0, 0
        clauses, head_end = [], None
        while at < len(text):
            clause = re.match(r"\n\s*(requires|ensures)\s*(\w+)?\s*\{", text[at:])
            if clause:
                head_end = head_end or at
                end = at + clause.end()
                depth = 1
                while depth:
                    depth += {"{": 1, "}": -1}.get(text[end], 0)
                    end += 1
                clauses.append((clause.group(1), text[at + clause.end():end - 1].strip()))
                at = end
            elif text[at] == "{" or (text[at] == ";" and not parens):
                break
            else:
                parens += {"(": 1, "[": 1, ")": -1, "]": -1}.get(text[at], 0)
                at += 1
        if at == len(text) or text[at] == ";":
            continue
        head, end, depth = text[start.end():head_end or at], at + 1, 1
        while depth:
            depth += {"{": 1, "}": -1}.get(text[end], 0)
            end += 1
        found.append((start.group(1), head, clauses, text[at:end], text.count("\n", 0, start.start()) + 1))
    return found


def shape(body):
    """A body with its names and numbers left out, so that twins have the same shape."""
    seen = {}
    out = []
    for token in re.findall(r"\w+|[^\w\s]", body):
        if token in KEYWORDS or not re.match(r"\w", token):
            out.append(token)
        else:
            out.append(seen.setdefault(token, f"n{len(seen)}"))
    return " ".join(out)


def structs(text):
    for found in re.finditer(r"\bstruct (\w+)[^;{(]*\{(.*?)\n\}", text, re.S):
        fields = re.findall(r"^\s*(?:pub(?:\(crate\))? )?(\w+): ([^\n]+),$", found.group(2), re.M)
        yield found.group(1), [f for f in fields if not f[1].startswith("{")]


def places(folder):
    points = collections.defaultdict(list)
    clauses, pairs, shapes = (collections.defaultdict(set) for _ in range(3))
    for path in sorted(folder.glob("crates/*/src/**/*.rt")):
        if path.name == "tests.rt":
            continue
        where = f"{path.parts[-3]}/{path.name}"
        text = source(path)
        for name, variants in re.findall(r"\benum (\w+)[^{]*\{(.*?)\n\}", text, re.S):
            named = re.findall(r"^    (\w+)", variants, re.M)
            if len(named) <= 2 or re.search(r"^    (Clear|None|Nothing|Absent)", variants, re.M):
                points[1].append(f"{where}: enum {name}: {', '.join(named)}")
        for name, fields in structs(text):
            arrays = [f for f in fields if re.match(r"\[.*;", f[1]) or f[1].endswith("Table")]
            counts = [f for f in fields if f[1] == "usize"]
            vectors = [f for f in fields if f[1].startswith("Vec")]
            if (arrays and counts) or len(vectors) > 1:
                points[6].append(f"{where}: struct {name}: {', '.join(f[0] for f in arrays + vectors + counts)}")
            points[1] += [f"{where}: struct {name}: flag {f[0]}" for f in fields if f[1] == "bool"]
        for literal in re.finditer(r"\b(\w+) \{((?:\s*\w+: [^{}]*?,?)+)\s*\}", text):
            if len(re.findall(r"\w+: 0,", literal.group(2) + ",")) > 1:
                points[1].append(f"{where}:{text.count(chr(10), 0, literal.start()) + 1}: {literal.group(1)} with zeros for what is not there yet")
        for name, head, stated, body, line in functions(text):
            spot = f"{where}:{line}: {name}"
            if re.search(r"Result<.*, (u8|u16|u32|u64|usize|bool|\(\))>", head):
                points[1].append(f"{spot}: a number for a refusal")
            points[1] += [f"{spot}: flag {p}" for p in re.findall(r"(\w+): bool", head)]
            for stand_in in STAND_IN:
                points[1] += [f"{spot}: {' '.join(m.split())}" for m in re.findall(stand_in, body)]
            if re.search(r"if let \w+::\w+ = \w+\.\w+ \{", body):
                points[1].append(f"{spot}: asks for a state by its flag")
            if re.search(r"=> \(\d\d, ", body) or re.search(r"layer: \d", body):
                points[1].append(f"{spot}: numbers of refusals")
            if len(re.findall(r"\w+|[^\w\s]", body)) > 8:
                shapes[shape(body)].add(spot)
            for loop in re.finditer(r"for (\w+) in ([^\n{]*\.\.[^\n{]*) \{", body):
                by_index = re.search(r"\[[^\]]*\b" + loop.group(1) + r"\b[^\]]*\]", body[loop.end():])
                points[3].append(f"{spot}: for {loop.group(1)} in {loop.group(2)}{' (indexes by it)' if by_index else ''}")
            points[3] += [f"{spot}: {m}" for m in re.findall(r"\b(?:while\b[^\n]*|\w+ \+= 1;)", body)]
            if re.search(r"-> Fault$", head.strip()) and name != "from":
                points[4].append(f"{spot}: a conversion")
            if re.search(r"self, \w+: (Self|\w+)\) -> bool", head) and re.search(r"[<>]", body):
                points[4].append(f"{spot}: an order")
            points[4] += [f"{spot}: prints fields: {m}" for m in re.findall(r"(?:print|println|write)!\([^;]*;[^;]*?((?:\w+\.\w+, ){1,}\w+\.\w+)", body)]
            points[4] += [f"{spot}: prints fields: {m}" for m in re.findall(r"push_line\(\s*b\"\w+\",\s*&\[((?:\w+\.\w+[^,\]]*(?:, )?){2,})\]", body)]
            if len(re.findall(r"^\s*(?:b?\"\w+\")(?: \| b?\"\w+\")* =>", body, re.M)) > 1:
                points[7].append(f"{spot}: a step chosen by a word")
            for kind, clause in stated:
                clauses[re.sub(r"\s+", " ", clause)].add(spot)
                if "×" in clause and kind == "requires":
                    points[5].append(f"{spot}: requires a product: {' '.join(clause.split())}")
            given = sorted(set(re.findall(r"(\w+): ([^,()]+(?:<[^<>]*>)?)", head.partition("(")[2].split("->")[0])))
            for i, first in enumerate(given):
                for second in given[i + 1:]:
                    pairs[f"{first[0]}: {first[1]}, {second[0]}: {second[1]}"].add(spot)
        for trait, kind in re.findall(r"impl(?:<[^>]*>)? (PartialEq|Eq|PartialOrd|Ord|Clone|Copy|Default|Display|fmt::Display|From<[^{]*>|TryFrom<[^{]*>)[^{]* for ([^{]+?) \{", text):
            points[4].append(f"{where}: impl {trait} for {kind}")
        if len(re.findall(r"fn under_\w+|fn \w+_(?:one|two|three)\b", text)) > 1:
            points[7].append(f"{where}: a function for each depth: {', '.join(re.findall(r'fn (under_[a-z]+)', text))}")
    points[2] = [" = ".join(sorted(spots)) for spots in shapes.values() if len(spots) > 1]
    points[5] += [f"{clause}: {', '.join(sorted(spots))}" for clause, spots in clauses.items() if len(spots) > 2]
    points[5] += [f"({pair}): {', '.join(sorted(spots))}" for pair, spots in pairs.items() if len(spots) > 2]
    for crate in sorted(p for p in folder.glob("crates/*") if (p / "proofs").is_dir()):
        files = list((crate / "proofs").rglob("*.antt"))
        answers = [f for f in files if f.name == "Answers.antt"]
        given = sum(len(re.findall(r"^pub \S+ :", f.read_text(), re.M)) for f in answers)
        lines = sum(len(f.read_text().splitlines()) for f in files)
        points[8].append(f"{crate.name}: {given} answers in {len(answers)} files, {lines} lines of proofs in all")
    return points


def main():
    folder = pathlib.Path(sys.argv[1] if len(sys.argv) > 1 else __file__).resolve()
    found = places(folder if folder.is_dir() else folder.parent.parent)
    for point in sorted(found):
        print(f"point {point}: {len(found[point])}")
        for place in found[point]:
            print(f"    {place}")


main()
