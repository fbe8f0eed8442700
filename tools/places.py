#!/usr/bin/env python3
"""List the places in src/ that an older form of the language may have left.

    tools/places.py            the working tree
    tools/places.py COMMIT     a commit

For each of the points of docs/DESIGN-PASS.md: the places found, by text alone, and their number.
A place found is one to look at: what stays has its reason in a line beside it.
"""

import re
import subprocess
import sys


def sources(commit):
    """The files of src/, by name, as lists of lines."""
    listing = ["git", "ls-tree", "-r", "--name-only", commit] if commit else ["git", "ls-files"]
    names = subprocess.run(listing, capture_output=True, text=True, check=True).stdout.split("\n")
    files = {}
    for name in names:
        if not re.fullmatch(r"crates/\w+/src/.*\.rt", name):
            continue
        if commit:
            shown = subprocess.run(["git", "show", f"{commit}:{name}"], capture_output=True, text=True, check=True)
            files[name] = shown.stdout.split("\n")
        else:
            with open(name, encoding="utf-8") as file:
                files[name] = file.read().split("\n")
    return files


def matching(files, *patterns):
    """The lines that one of the patterns is found in."""
    found = []
    for name, lines in files.items():
        for number, line in enumerate(lines, 1):
            if any(re.search(pattern, line) for pattern in patterns):
                found.append((name, number, line.strip()))
    return found


def signatures(files):
    """The functions: file, line, name and parameters."""
    for name, lines in files.items():
        text = "\n".join(lines)
        for match in re.finditer(r"\bfn (\w+)(?:<[^>]*>)?\(([^)]*)\)", text):
            number = text.count("\n", 0, match.start()) + 1
            parameters = [re.sub(r"\s+", " ", p.strip()) for p in match.group(2).split(",")]
            yield name, number, match.group(1), [p for p in parameters if p and not p.endswith("self")]


def crate(name):
    return name.split("/")[1]


def options_by_hand(files):
    return matching(
        files,
        r"^\s+(pub(\(\w+\))? )?\w+: bool,",
        r"Option<\w*(Refusal|Error|FaultKind)>",
        r"Err\(\w+\) => (return )?Err\(",
        r"if let Err\((refusal|error)\)",
        r"None => (Err|None)\b",
        r"None => return Err\(",
        r"\.code\(\) as usize",
        r"fn (code|from_code|number)\(self|fn from_code\(",
        r"built: bool",
    )


TWIN_WORDS = r"\d+|(?<=_)(words|int96s|runs|def|rep|node|column|list|map|path|name|repetitions?)(?=$|_)"


def twins(files):
    """Functions of a crate whose names are the same but for a size, a type's or a level's name; types that hold an array and a length."""
    groups = {}
    for name, number, function, _ in signatures(files):
        groups.setdefault((crate(name), re.sub(TWIN_WORDS, "", function)), []).append((name, number, "fn " + function))
    found = []
    for (_, bare), places in groups.items():
        names = {place[2] for place in places}
        if len(names) > 1 and len(bare) > 3:
            found += places
    for name, lines in files.items():
        text = "\n".join(lines)
        for match in re.finditer(r"struct (\w+)(?:<[^>]*>)? \{(.*?)\n\}", text, re.S):
            if re.search(r"\[\w+; \w+\],", match.group(2)) and re.search(r"(len|nodes|leaves|used): usize", match.group(2)):
                found.append((name, text.count("\n", 0, match.start()) + 1, "struct " + match.group(1)))
    return found


def counted_loops(files):
    found = matching(files, r"^\s*for \w+ in .*\.\.", r"^\s*while\b", r"^\s*loop\b")
    for name, lines in files.items():
        for number, line in enumerate(lines, 1):
            if re.match(r"\s*for \w+ in [^.]*[^.0-9][^{]*\{", line) and ".." not in line:
                body = "\n".join(lines[number:number + 3])
                if re.match(r"\s*if\b", lines[number]) and re.search(r"return|\+= 1|= Some", body):
                    found.append((name, number, line.strip()))
    return found


def by_hand(files):
    return matching(
        files,
        r"fn (same_\w+|kind_of|kind_name|shape_of|to_value|from_value|of|named|parse|name|\w*reason)\(",
        r"impl.* (PartialEq|Eq|PartialOrd|Ord|Clone|Copy|Default)(<.*>)? for",
        r"matches!\(",
    )


def together(files):
    """Parameters that stand together in four functions of a crate or more, and clauses that stand in three or more."""
    found = []
    pairs = {}
    for name, number, function, parameters in signatures(files):
        parameters = [p for p in parameters if not p.startswith(("heap:", "rt:", "text:"))]
        for i, first in enumerate(parameters):
            for second in parameters[i + 1:]:
                pairs.setdefault((crate(name), first, second), []).append((name, number, function))
    for (_, first, second), places in pairs.items():
        if len(places) >= 4:
            name, number, _ = places[0]
            found.append((name, number, f"({first}, {second}) in " + ", ".join(p[2] for p in places)))
    clauses = {}
    for name, lines in files.items():
        for number, line in enumerate(lines, 1):
            match = re.match(r"\s*(requires|ensures)\b[^{]*\{(.*)\}", line)
            if match:
                clauses.setdefault((crate(name), match.group(2).strip()), []).append((name, number))
    for (_, clause), places in clauses.items():
        if len(places) >= 3:
            found.append((*places[0], f"{len(places)} times: {clause}"))
    return found


def lengths_beside(files):
    return matching(
        files,
        r"^\s+(pub(\(\w+\))? )?\w+: \[(u8|u32|u64|usize|V|[A-Z][a-z]\w*); [A-Z_]+\],",
        r"^\s+(pub(\(\w+\))? )?(start|place): (usize|u64),",
    )


def switches(files):
    """Two arms or more, one after the other, that each only call a step; pointers to functions."""
    found = matching(files, r": fn\(")
    for name, lines in files.items():
        run = 0
        for number, line in enumerate(lines, 1):
            if re.search(r"=> (\{)?$", line):
                continue
            if re.search(r"=> (self\.\w+|\w+_text|\w+::report|self\.\w+\.add)\(", line):
                run += 1
                if run == 2:
                    found.append((name, number - 1, line.strip()))
            else:
                run = 0
    return found


POINTS = [
    ("1  options, flags beside values, numbers for kinds", options_by_hand),
    ("2  twins", twins),
    ("3  loops that count or search by hand", counted_loops),
    ("4  equality, conversion, printing by hand", by_hand),
    ("5  facts and parameters that travel together", together),
    ("6  buffers with a length beside, places in place of slices", lengths_beside),
    ("7  switches on a step", switches),
]


def main():
    files = sources(sys.argv[1] if len(sys.argv) > 1 else None)
    for title, find in POINTS:
        found = sorted(set(find(files)))
        print(f"== {title}: {len(found)}")
        for name, number, line in found:
            print(f"{name}:{number}: {line}")


main()
