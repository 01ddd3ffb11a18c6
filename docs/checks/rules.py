"""docs/RULES.md: a row of docs/TRACE.md for each rule, the calls that its headings name, citations of its rules, and its numbers."""
import re

from checks.repository import FILES, PORT, RULES, TRACE, counts, fault, lines_of, part_of, prose_of, sections_of, unlinked
from checks.sources import CALLS, heads_of

NUMBERS = "docs/numbers.txt"
CITED = re.compile(r"RULES(?:\.md)?`?,[\s/!#*-]*((?:\"[^\"]{1,80}\"(?:, and |, | and )?)+)")
LARGE = re.compile(r"-?2\^\d+(?:-1)?|\d{1,3}(?:,\d{3})+")

# ---- rules, calls, citations

def check_rules():
    """Each rule has a row `Name` or `Name: part` in docs/TRACE.md, and each row there is of a rule; what the rules cite in quotes
    is a heading or a rule."""
    traced = sections_of(TRACE)
    named = {*sections_of(RULES), *(name for _, rules, _ in sections_of(RULES).values() for name in rules)}
    for number, line in prose_of(RULES):
        for name in set(re.findall(r"\"([A-Z][^\"]*)\"", line)) - named:
            fault(RULES, number, f"no heading or rule \"{name}\"")
    for heading, (number, rules, known) in sections_of(RULES).items():
        counts["rules"] += len(rules)
        rows = traced.get(heading, (0, {}, {}))[2] if rules else {}
        if rules and heading not in traced:
            fault(RULES, number, f"no section `## {heading}` in {TRACE}")
            continue
        for name in set(rules) - set(rows) - {row.split(":")[0] for row in rows}:
            fault(RULES, rules[name], f"no row `{name}` under `## {heading}` in {TRACE}")
        for row in rows:
            if not {row, row.split(":")[0]} & {*rules, *known}:
                fault(TRACE, rows[row], f"no rule `{row}` under `## {heading}` in {RULES}")

def check_calls():
    """Each call that a heading of the rules names is a public function: `name`, `Type::name`, or `crate::name`."""
    for number, line in prose_of(RULES):
        for token in re.findall(r"`([^`]+)`", line) if line.startswith("## ") else ():
            counts["names"] += 1
            if token not in CALLS:
                fault(RULES, number, f"no public function `{token}`")

def check_citations(path):
    """A file that names a page names one that is there; who cites a rule names its heading, and perhaps it behind."""
    text, headings = unlinked(FILES[path]) if path.endswith(".md") else FILES[path], sections_of(RULES)
    for page in re.finditer(r"\b(docs|bench)/[A-Z-]+\.md\b", text):
        if page[0] not in FILES and path != PORT:
            fault(path, text.count("\n", 0, page.start()) + 1, f"no page {page[0]}")
    for cited in CITED.finditer(text):
        under = {}
        for name in re.findall(r"\"([^\"]+)\"", cited[1]):
            name = re.sub(r"\s*\n[\s/!#*-]*", " ", name)
            counts["names"] += 1
            if name not in {*headings, *under, "HEADING"}:
                fault(path, text.count("\n", 0, cited.start()) + 1, f"no heading \"{name}\" in {RULES}")
            under = headings.get(name, (0, under))[1]

# ---- numbers

def definition_of(name):
    """The lines of a definition `crate/File.name`, its comments aside."""
    crate, file, name = re.split(r"[/.]", name)
    path = f"crates/{crate}/specs/{file}.antt"
    heads = heads_of(path) if path in FILES else []
    first = next((line for line, known in heads if known == name), 0)
    last = next((line for line, _ in heads if first < line), None)
    return "\n".join(line for _, line in list(lines_of(path))[first - 1:last and last - 1] if not re.match(r" *--", line)) if first else ""

def check_numbers():
    """The words of each line of docs/numbers.txt stand under their heading, and the definition has the number too; each large
    number of the rules has a line, unless it is part of a typed one."""
    heading, looked_up = ("", ""), {}
    for number, line in lines_of(NUMBERS):
        if found := re.fullmatch(r'(\S+), "(.+)"', line):
            heading = found[1], found[2]
        elif line and not line.startswith("#"):
            counts["numbers"] += 1
            words, name, same = line.split(" | ")
            for said, text, where in (words, part_of(*heading), f'{heading[0]}, "{heading[1]}"'), (same, definition_of(name), name):
                if not re.search(rf"(?<![\w^]){re.escape(said)}(?!\d|[,.^-]\d)", text):
                    fault(NUMBERS, number, f"no `{said}` in {where}")
            looked_up.setdefault(heading, set()).update(LARGE.findall(words))
    for title, (number, rules, _) in sections_of(RULES).items():
        for large in sorted(set(LARGE.findall(re.sub("`.*?`", "", part_of(RULES, title)))) - looked_up.get((RULES, title), set())) if rules else ():
            fault(RULES, number, f"no line of {NUMBERS} under this heading has {large}")
