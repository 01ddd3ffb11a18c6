"""What all checks share: the files of the repository, the faults and the counts, and how a page is read."""
import os
import re
from functools import cache
from pathlib import Path

TOP = Path(__file__).resolve().parents[2]
RULES, TRACE, PORT = "docs/RULES.md", "docs/TRACE.md", "docs/PORT.md"  # PORT tells of names that are gone
LINK = re.compile(r"`[^`\n]*`|\[((?:[^\[\]]|\[[^\[\]]*\])*)\]\(([^()\s]+)\)")  # of what stands in backticks both groups are empty
INDENTED = re.compile(r" {4}(?! *(?:[-*]|\d+\.) )")  # begins a line of code, and no entry of a list

faults = []
counts = dict.fromkeys(["names", "paths", "edits", "clauses", "rules", "numbers", "examples", "links"], 0)

def fault(path, number, what):
    """Notes one fault."""
    faults.append(f"{path}:{number}: {what}")

def read_files():
    """The text of every file that is not built, by its path; a byte that is no UTF-8 stays as it is."""
    files = {}
    for folder, inner, names in os.walk(TOP):
        inner[:], names = ([name for name in sorted(those) if not re.match(r"\.(?!ci$|gitignore$)|(out|target|__pycache__)$", name)]
                           for those in (inner, names))
        for path in (Path(folder, name) for name in names):
            files[path.relative_to(TOP).as_posix()] = path.read_bytes().decode("utf-8", "surrogateescape")
    return files

FILES = read_files()
PATHS = set(FILES) | {folder.as_posix() for path in FILES for folder in Path(path).parents}

def lines_of(path):
    """The lines of a file, each with its number."""
    return enumerate(FILES[path].split("\n"), 1)

def exists(path):
    """Whether a path is there: `*` is a part of one, `**` any, `/..` the rest; what is made is there by its folder."""
    path = re.sub(r"/(\.\.)?$|(^|/)(out|target)(/.*)?$", "", path)
    pattern = re.escape(path).replace(r"\*\*", ".*").replace(r"\*", "[^/]*")
    return not path or path in PATHS or "*" in path and any(re.fullmatch(pattern, known) for known in PATHS)

# ---- a page: its lines, its links, its sections

def outside_blocks(path):
    """The lines of a page outside its fenced blocks, each with its number."""
    fenced = False
    for number, line in lines_of(path):
        fenced ^= (fence := line.startswith("```"))
        if not fenced and not fence:
            yield number, line

def unlinked(text):
    """A text with the words of each link in its place."""
    return LINK.sub(lambda link: link[1] if link[2] else link[0], text)

def prose_of(path):
    """The lines of a page outside its fenced blocks, each with its number, as they read without their links."""
    return ((number, unlinked(line)) for number, line in outside_blocks(path))

def cited_as(heading):
    """The name of a section: its heading, without the calls in brackets behind it."""
    return re.sub(r" \(`.*`\)$", "", heading.strip())

@cache
def sections_of(path):
    """name of a section -> (line, its rules in bold, the first cells of its tables' rows), these two as name -> line."""
    sections, rules, cells = {}, {}, {}
    for number, line in prose_of(path):
        if line.startswith("## "):
            rules, cells = {}, {}
            sections[cited_as(line[3:])] = number, rules, cells
        elif rule := re.match(r"- \*\*(.+?)\*\*", line):
            rules[rule[1].rstrip(".,")] = number
        elif (cell := re.match(r"\| *([^ -].*?) *\|", line)) and cell[1] != "rule":
            cells[cell[1].strip("*`")] = number
    return sections

def part_of(path, heading):
    """What stands in a page under a heading."""
    parts = (part.partition("\n") for part in unlinked(FILES.get(path, "")).split("\n## ")[1:])
    return next((text for first, _, text in parts if cited_as(first) == heading), "")
