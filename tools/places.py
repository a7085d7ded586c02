#!/usr/bin/env python3
"""Lists the places in crates/*/src that read like an older Rattle, point by point.

    python3 tools/places.py [--count] [POINT ..]

Without a point all are listed; with --count only how many there are.
A line that is listed is a place to look at, not yet a fault.
"""
import collections
import glob
import re
import sys

FILES = sorted(glob.glob("crates/*/src/**/*.rt", recursive=True))
TEXT = {f: open(f).read() for f in FILES}
CALL = re.compile(r"\b(?:pub(?:\([a-z]+\))? )?(?:final )?fn ([a-z_0-9]+)")


def lines_matching(pattern):
    found = []
    for f in FILES:
        for n, line in enumerate(TEXT[f].split("\n"), 1):
            if re.search(pattern, line) and not line.strip().startswith(("//", "ghost", "requires", "ensures")):
                found.append(f"{f}:{n}: {line.strip()}")
    return found


def functions():
    """Each function: file, line, name, parameters, clauses, body."""
    for f in FILES:
        lines = TEXT[f].split("\n")
        for n, line in enumerate(lines):
            m = CALL.search(line)
            if not m or line.strip().startswith("//"):
                continue
            indent = len(line) - len(line.lstrip())
            end = n
            if not line.rstrip().endswith("}") and not line.rstrip().endswith(";"):
                end = n + 1
                while end < len(lines) and not (
                    lines[end].strip() and len(lines[end]) - len(lines[end].lstrip()) <= indent
                    and lines[end].strip()[0] not in "{)rew"
                ):
                    end += 1
            part = lines[n:end + 1]
            open_at = next((k for k, x in enumerate(part) if x.strip() == "{"), 0)
            head = " ".join(x.strip() for x in part[:open_at or 1])
            clauses = [x.strip() for x in part[:open_at] if re.match(r"\s*(requires|ensures)\b", x)]
            body = [x.strip() for x in part[open_at + 1:]]
            inside = head.split("(", 1)[1] if "(" in head else ""
            depth, params = 1, ""
            for ch in inside:
                depth += ch in "(<[" 
                depth -= ch in ")>]" and not params.endswith("-")
                if depth == 0:
                    break
                params += ch
            yield f, n + 1, m.group(1), [p.strip() for p in re.split(r",\s+(?=[a-z_]+:)", params.rstrip(", "))], clauses, body


def twins():
    """Functions, and types, that are the same once types, numbers and the names of callees are left out."""
    groups = collections.defaultdict(list)
    for f, n, name, params, clauses, body in functions():
        text = " ".join(body)
        if len(text) < 25:
            continue
        text = re.sub(r'b?"[^"]*"', "S", text)
        text = re.sub(r"\b(?:[a-z_]+::)*[A-Z][A-Za-z0-9_]*\b", "T", text)
        text = re.sub(r"\b[0-9][0-9_]*\b", "N", text)
        text = re.sub(r"\b[a-z_]+\(", "f(", text)
        names = []
        def number(m):
            word = m.group(0)
            if word in ("T", "N", "S", "f", "match", "let", "mut", "if", "else", "for", "in", "return", "self", "as"):
                return word
            if word not in names:
                names.append(word)
            return f"v{names.index(word)}"
        groups[re.sub(r"\b[A-Za-z_]+\b", number, text)].append(f"{f}:{n}: fn {name}")
    for f in FILES:
        for m in re.finditer(r"(?:struct|enum) ([A-Z]\w*)[^{;]*\{([^}]*)\}", TEXT[f]):
            shape = re.sub(r"//[^\n]*|\s+", " ", m.group(2))
            if "ghost" in shape or len(shape) < 20:
                continue
            shape = re.sub(r"pub(\([a-z]+\))? ", "", re.sub(r"\b[A-Z]\w*\b", "T", shape))
            line = TEXT[f][:m.start()].count("\n") + 1
            groups["type " + shape].append(f"{f}:{line}: type {m.group(1)}")
    return [g for g in groups.values() if len(g) > 1]


def repeated_facts():
    """Clauses that stand in three functions or more, and parameters that travel together through three or more."""
    facts = collections.defaultdict(list)
    groups = collections.defaultdict(list)
    for f, n, name, params, clauses, body in functions():
        for clause in clauses:
            kind, fact = clause.split("{", 1)
            fact = fact.rsplit("}", 1)[0].strip()
            if kind.split()[0] == "ensures" and fact.startswith("result"):
                continue
            fact = re.sub(r"\.(now|old|new)\b", "", fact)
            fact = re.sub(r"\b(links|self|plan|ins|outs|below)\b", "_", fact)
            facts[kind.split()[0] + " " + fact].append(f"{f}:{n}: fn {name}")
        wanted = sorted({p for p in params if ":" in p and not p.startswith(("heap:", "rt:"))})
        for i in range(len(wanted)):
            for j in range(i + 1, len(wanted)):
                groups[wanted[i] + ", " + wanted[j]].append(f"{f}:{n}: fn {name}")
    out = [[k] + v for k, v in facts.items() if len(v) > 2]
    together = collections.defaultdict(set)
    for pair, where in groups.items():
        if len(where) > 2:
            together[tuple(where)].update(pair.split(", "))
    return out + [[", ".join(sorted(params))] + list(where) for where, params in together.items()]


def parallel():
    """Structs with two lists or a list and its length, and parameters that are a buffer and a place in it."""
    found = []
    for f in FILES:
        for m in re.finditer(r"struct ([A-Z]\w*)[^{;]*\{([^}]*)\}", TEXT[f]):
            lists = re.findall(r"^\s+(?:pub(?:\([a-z]+\))? )?(\w+): (?:Vec<|\[|&'a (?:mut )?\[)", m.group(2), re.M)
            counts = re.findall(r"^\s+(?:pub(?:\([a-z]+\))? )?(\w+): (?:usize|u32),", m.group(2), re.M)
            if len(lists) > 1 or (lists and counts):
                line = TEXT[f][:m.start()].count("\n") + 1
                found.append(f"{f}:{line}: struct {m.group(1)}: {', '.join(lists + counts)}")
    for f, n, name, params, clauses, body in functions():
        lists = [p for p in params if re.search(r"(?:&mut Vec<|&mut \[)", p)]
        places = [p for p in params if re.match(r"(at|start|from|len|count): usize", p)]
        if len(lists) > 1 or (lists and places):
            found.append(f"{f}:{n}: fn {name}: {', '.join(lists + places)}")
    return found


POINTS = {
    "1": [
        ("an own enum of the shape of Option or Result", lambda: lines_matching(r"^    (Unknown|Nothing|None|Refused|Failed|Missing)\b.*,$")),
        ("a flag with a value beside it", lambda: lines_matching(r"^    (pub )?[a-z_]+: bool,")),
        ("numbers for kinds or refusals", lambda: lines_matching(r"^\s+[A-Z]\w+::[A-Z]\w+(\(_\))? => [0-9]+,")),
        ("an Option or Result taken apart only to be built again or to say yes or no", lambda: lines_matching(
            r"^\s*(None|Err\([a-z_]*\)|_) => (Ok\(None\)|None|true|false|return\b|Err\(|\{\}|unreachable|0,|Answer::Refused|Some\(refusal)")),
        ("let .. else that hands on an Err", lambda: lines_matching(r"let (Ok|Some)\(.*\)? = .*else \{$|^\s*\) = .* else \{$")),
    ],
    "2": [("twins", twins)],
    "3": [
        ("for over a range of numbers", lambda: lines_matching(r"\bfor \w+ in \S+\.\.\S*")),
        ("while and loop", lambda: lines_matching(r"^\s*(while|loop)\b")),
        ("a count or a flag kept by hand", lambda: lines_matching(r"\b\w+ (\+=|-=) 1;|(\b\w+) = \2 && ")),
    ],
    "4": [
        ("equality by hand", lambda: lines_matching(r"\b(\w+)\.(\w+) == (\w+)\.\2 &&")),
        ("a comparison that a range says", lambda: lines_matching(r"(\b\w+ <= (\w+) && \2 <= )|(\b(\w+) < \w+ \|\| \4 > )|(== 0 \|\| \w+ > )")),
        ("conversion by hand", lambda: lines_matching(r"fn (\w+_number|of_\w+|arrival)\(\w+: [A-Z]")),
        ("printing by hand", lambda: lines_matching(r"print!\(rt; .*\{")),
    ],
    "5": [("facts and parameters in three functions or more", repeated_facts)],
    "6": [("lists side by side, or with a length or place beside", parallel)],
    "7": [
        ("a match that chooses the step to run", lambda: lines_matching(r"match (\*?self|call|word|net\.\w+|reading\.net\.\w+|read_word\(.*\)) \{")),
        ("a function or closure as a value", lambda: lines_matching(r"\bdyn |: fn\(|Box<")),
    ],
}


def main():
    args = [a for a in sys.argv[1:] if a != "--count"]
    for point in args or POINTS:
        for title, find in POINTS[point]:
            found = find()
            print(f"{point} {title}: {len(found)}")
            if "--count" not in sys.argv:
                for item in found:
                    print("    " + (item if isinstance(item, str) else " | ".join(item)))


main()
