#!/usr/bin/env python3
"""Lists the places in crates/*/src that are written in an older form, point by point (docs/DESIGN-PASS.md).

usage: tools/places.py [POINT] [--test]    with no point: the counts alone; --test: files of tests too
"""
import collections
import pathlib
import re
import sys

ROOT = pathlib.Path(__file__).resolve().parent.parent
KEYWORDS = set("as break const continue crate else enum false fn for if impl in let loop match mod move mut pub ref "
               "return self Self static struct trait true type unsafe use where while None Some Ok Err".split())


def cut_comments(text):
    return re.sub(r"//[^\n]*", "", text)


def group(text, start):
    """The end of the bracketed group that begins at start."""
    pairs = {"{": "}", "(": ")", "[": "]"}
    stack = []
    for i in range(start, len(text)):
        if text[i] in pairs:
            stack.append(pairs[text[i]])
        elif stack and text[i] == stack[-1]:
            stack.pop()
            if not stack:
                return i + 1
    return len(text)


def functions(path):
    """Name, line, parameters, result, clauses and body of each function."""
    text = cut_comments(path.read_text())
    for found in re.finditer(r"\bfn (\w+)(<[^(]*>)?\(", text):
        end = group(text, found.end() - 1)
        parameters = text[found.end():end - 1]
        rest = text[end:]
        result = re.match(r"\s*->\s*([^{;]*?)(?=\s*(?:requires|ensures|\{|;))", rest)
        at = end + (result.end() if result else 0)
        clauses = []
        body = ""
        while True:
            clause = re.compile(r"\s*(requires|ensures)\*?\s*(\w+)?\s*(?=\{)").match(text, at)
            if clause:
                stop = group(text, clause.end())
                clauses.append((clause[1], clause[2] or "", " ".join(text[clause.end() + 1:stop - 1].split())))
                at = stop
                continue
            begin = re.compile(r"\s*\{").match(text, at)
            if begin:
                body = text[begin.end() - 1:group(text, begin.end() - 1)]
            break
        yield (found[1], text.count("\n", 0, found.start()) + 1, parameters, result[1] if result else "", clauses, body,
               "#[test]" in text[max(0, found.start() - 20):found.start()])


def files(tests):
    for path in sorted(ROOT.glob("crates/*/src/*.rt")):
        crate = path.parts[-3]
        if tests or (not crate.endswith("_tests") and path.name != "tests.rt"):
            yield path


def normal(code):
    out = []
    for token in re.findall(r"'\w+\b|\w+|\"[^\"]*\"|[^\s\w]", code):
        if token in KEYWORDS or not re.match(r"[\w\"']", token):
            out.append(token)
        else:
            out.append("#")
    return " ".join(out)


def enums(path):
    text = cut_comments(path.read_text())
    for found in re.finditer(r"\benum (\w+)(<[^{]*>)?\s*\{", text):
        body = text[found.end():group(text, found.end() - 1) - 1]
        body = re.sub(r"\{[^}]*\}", "(_)", body)
        variants = [v.strip() for v in re.sub(r"\([^)]*\)", "()", body).split(",") if v.strip()]
        yield found[1], text.count("\n", 0, found.start()) + 1, variants


def arms(body):
    return re.findall(r"([^,{}]*?)=>\s*([^,{}]*)", body)


def constant(code):
    return re.fullmatch(r"\s*(?:\d+|b?\"[^\"]*\"|true|false|(?:Some|Ok|Err)\(\s*[\w:]+\s*\)|None|[A-Z]\w*(?:::\w+)*"
                        r"(?:\(\s*[\w:]+\s*\))?)\s*", code) is not None


def point_1(tests):
    """Enums with an empty and a full case, numbers for cases, flags that tell a refusal."""
    for path in files(tests):
        for name, line, variants in enums(path):
            full = [v for v in variants if "(" in v]
            if full and len(full) < len(variants) and len(variants) <= 5:
                yield path, line, f"enum {name}: {', '.join(variants)}"
        for name, line, parameters, result, _, body, test in functions(path):
            if test:
                continue
            if result == "bool" and "&mut" in parameters:
                yield path, line, f"fn {name}: a flag for a refusal"
            numbers = [a for a in arms(body) if re.fullmatch(r"\s*\d+\s*", a[1]) or re.fullmatch(r"\s*\d+\s*", a[0])]
            if len(numbers) >= 2:
                yield path, line, f"fn {name}: numbers for cases"
            if re.search(r"-> u8|^u8$", result) and re.search(r"\.number\(\)", body):
                yield path, line, f"fn {name}: a refusal as a number"


def point_2(tests):
    """Functions whose bodies differ only in names and literals."""
    groups = collections.defaultdict(list)
    for path in files(tests):
        for name, line, parameters, _, _, body, test in functions(path):
            code = normal(body)
            if not test and len(code.split()) >= 12:
                groups[code].append((path, line, name))
    for members in groups.values():
        if len(members) > 1:
            for path, line, name in members:
                yield path, line, f"fn {name}, like " + ", ".join(sorted({m[2] for m in members} - {name}) or [name])


def point_3(tests):
    """Loops with an index, and recursions down a slice."""
    for path in files(tests):
        for number, text in enumerate(path.read_text().split("\n"), 1):
            if re.search(r"^\s*while ", text) or re.search(r"\bfor \w+ in [\w.]+\.\.", text):
                yield path, number, text.strip()
        for name, line, _, _, _, body, _ in functions(path):
            if re.search(r"@ \.\.\]", body) and re.search(rf"\b{name}\(", body):
                yield path, line, f"fn {name}: a recursion down a slice"


def point_4(tests):
    """Equality, order, conversion and printing by hand."""
    for path in files(tests):
        for name, line, parameters, result, _, body, test in functions(path):
            inner = body.strip()[1:-1].strip()
            if test or not inner:
                continue
            found = arms(inner)
            if re.fullmatch(r"\w+ == \w+", inner):
                yield path, line, f"fn {name}: an equality"
            elif re.fullmatch(r"if (\w+) [<>]=? (\w+) \{ \w+ \} else \{ \w+ \}", inner):
                yield path, line, f"fn {name}: an order"
            elif re.match(r"match \w+ \{", inner) and len(found) >= 2 and all(constant(v) for _, v in found):
                yield path, line, f"fn {name}: a table of cases"
            elif re.search(r"print_|^word$|^told$", name) and "println!" in body + "println!" * (result == "&'static str"):
                yield path, line, f"fn {name}: printing"
            for flag in re.findall(r"if [\w.]+ \{ 1 \} else \{ 0 \}", body):
                yield path, line, f"fn {name}: {flag}"
            for cast in re.findall(r"[\w.()\[\]]+ as (?:u16|u32|u64|u128)\b", body):
                yield path, line, f"fn {name}: {cast}"


def point_5(tests):
    """What is required in three functions or more of a crate, and parameters that go together in three or more."""
    facts = collections.defaultdict(list)
    together = collections.defaultdict(list)
    for path in files(tests):
        crate = path.parts[-3]
        for name, line, parameters, _, clauses, _, test in functions(path):
            if test:
                continue
            for kind, _, text in clauses:
                if kind == "requires":
                    facts[crate, re.sub(r"\b(old|now)\b", "now", text)].append((path, line, name))
            names = [" ".join(p.split()) for p in re.split(r",(?![^<(]*[>)])", parameters) if ":" in p]
            for a in range(len(names)):
                for b in range(a + 1, len(names)):
                    for c in range(b + 1, len(names)):
                        together[crate, names[a], names[b], names[c]].append((path, line, name))
    for (crate, text), members in facts.items():
        if len(members) >= 3:
            yield members[0][0], members[0][1], f"{len(members)} functions require {text}"
    for key, members in together.items():
        if len(members) >= 3:
            yield members[0][0], members[0][1], f"{len(members)} functions take {', '.join(key[1:])}"


def point_6(tests):
    """Buffers with a length beside them, parallel tables, links by number."""
    for path in files(tests):
        text = cut_comments(path.read_text())
        for found in re.finditer(r"\bstruct (\w+)(<[^{;(]*>)?\s*\{", text):
            body = text[found.end():group(text, found.end() - 1) - 1]
            line = text.count("\n", 0, found.start()) + 1
            if re.search(r":\s*\[[^\]]+; *\w+\]", body):
                yield path, line, f"struct {found[1]}: an array of fixed room"
            if len(re.findall(r": Vec<", body)) > 1:
                yield path, line, f"struct {found[1]}: tables side by side"
        for found in re.finditer(r"\benum (\w+)", text):
            body = text[found.start():group(text, text.index("{", found.start()))]
            if re.search(r"next: u8|\(u16\)|, u16", body):
                yield path, text.count("\n", 0, found.start()) + 1, f"enum {found[1]}: links by number"
        for name, line, parameters, _, _, _, test in functions(path):
            if not test and re.search(r"\[\w+\],\s*(?:depth|pending|count|size|width|left|values): u", parameters):
                yield path, line, f"fn {name}: a slice and a length"


def point_7(tests):
    """Switches that pick one of several functions, and tables of functions."""
    for path in files(tests):
        for name, line, _, _, _, body, test in functions(path):
            found = arms(body)
            calls = [v for _, v in found if re.match(r"\s*(?:[\w.]+\.)?[a-z_]\w*\(", v)]
            if not test and re.search(r"match (?:act|call|named|step|which)\b", body):
                yield path, line, f"fn {name}: {len(calls)} calls by a switch"
            if re.search(r"\bfn\(", body):
                yield path, line, f"fn {name}: a function pointer"


def point_8(tests):
    """Answers, and lemmas of our own whose name stands twice in the repository's proofs."""
    lemmas = collections.defaultdict(list)
    for path in sorted(ROOT.glob("crates/*/proofs/**/*.antt")):
        crate = path.relative_to(ROOT).parts[1]
        answers = path.name in ("Answers.antt", "Invariants.antt")
        for number, text in enumerate(path.read_text().split("\n"), 1):
            found = re.match(r"(?:abbrev )?(?:pub )?([a-z][\w-]*) :", text)
            if found and answers:
                yield path, number, f"{crate}: answer {found[1]}"
            elif found:
                lemmas[found[1]].append((path, number))
    for name, members in lemmas.items():
        if len({m[0].relative_to(ROOT).parts[1] for m in members}) > 1:
            for path, number in members:
                yield path, number, f"lemma {name}, in {len(members)} places"


def main():
    words = [w for w in sys.argv[1:] if not w.startswith("--")]
    tests = "--test" in sys.argv
    points = [point_1, point_2, point_3, point_4, point_5, point_6, point_7, point_8]
    for number, point in enumerate(points, 1):
        if words and str(number) not in words:
            continue
        places = list(point(tests))
        print(f"{number}: {len(places)}  {point.__doc__}")
        if words:
            for path, line, what in places:
                print(f"  {path.relative_to(ROOT)}:{line}  {what}")


main()
