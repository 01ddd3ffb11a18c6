"""docs/TRACE.md: the three tables that `docs/check --write` writes, and the contracts and clauses that its other rows name."""
import os
import re
import sys

from checks.repository import FILES, TOP, TRACE, counts, fault, prose_of
from checks.sources import CONTRACTS, EDITS, module_of

# ---- the three tables

def contracts_table():
    """A row for each file: its functions that have a contract, in their order, with what each asks and promises."""
    rows = ["| file | functions that have a contract: their clauses |", "|---|---|"]
    for file, functions in CONTRACTS.items():
        told = (f"`{name}`: {', '.join(clauses)}" + (f" (asks {', '.join(premises)})" if premises else "")
                for name, (premises, clauses) in functions.items())
        rows.append(f"| `{file}` | {'; '.join(told)} |")
    return rows

def claims_table():
    """A row for each function whose name ends in `_hold`: what its clauses claim."""
    rows = ["| function | claims, in the order of its clauses |", "|---|---|"]
    for path in FILES:
        for held in re.finditer(r"^pub fn (\w+_hold)\(\)\n((?:    .*\n)+)", FILES[path], re.M):
            used = re.findall(r"use Rattle\.(\w+)\.specs\.(\w+)\.\{(.*?)\};", FILES[path])
            homes = {name: f"{crate}/{file}." for crate, file, names in used for name in names.split(", ")}
            claims = [f"`{homes[name]}{name}`".replace("`specification/", "`") for name in re.findall(r"\b[A-Z]\w*", held[2])]
            rows.append(f"| `{path.split('/')[1]}::{held[1]}` | {', '.join(claims)} |")
    return rows

def edits_table():
    """A row for each file that an edit changes: its functions and definitions in their order, with the edits of each;
    those that the gate tries are in bold, those of statements in italics."""
    files = {}
    for file, _, name, edit, folder in EDITS:
        mark = {"must-fail": "**", "wrong": "", "statements": "*"}[folder]
        files.setdefault(file, {}).setdefault(name, []).append(f"{mark}{edit}{mark}")
    rows = ["| file | what is spoiled there: the edits |", "|---|---|"]
    for file, owners in files.items():
        rows.append(f"| `{file}` | {'; '.join(f'`{name}`: ' + ', '.join(edits) for name, edits in owners.items())} |")
    return rows

def check_written(name, rows):
    """A part of docs/TRACE.md that this script writes: written anew with --write, else compared."""
    begin, whole = f"<!-- docs/check writes this: {name} -->\n", "\n".join(["", *rows, "", ""])
    before, _, rest = FILES[TRACE].partition(begin)
    part, end, after = rest.partition("<!-- end -->")
    if not end:
        fault(TRACE, 1, f"no line `{begin.strip()}` with a line `<!-- end -->` behind it")
    elif part != whole and "--write" in sys.argv:
        FILES[TRACE] = before + begin + whole + end + after
        (TOP / TRACE).write_text(FILES[TRACE], "utf-8")
    elif part != whole:
        number = (before + begin + os.path.commonprefix([part, whole])).count("\n") + 1
        fault(TRACE, number, f"the table of {name} is not as docs/check --write would have it")

# ---- the column `contract`, and the clauses named behind a function

def clauses_of(name):
    """The names of the clauses of a function `crate::module::name` or `crate::module::Type::name`; none without a contract."""
    crate = name.split("::")[0]
    if handed_on := re.search(rf"^pub use (?:crate::)?(\S+::{name.split('::')[-1]});", FILES.get(f"crates/{crate}/src/lib.rt", ""), re.M):
        name = f"{crate}::{handed_on[1]}"
    home, _, last = name.rpartition("::")
    of_type = home.split("::")[-1]
    for file, functions in CONTRACTS.items():
        if of_type[0].isupper() and file.startswith(f"{crate}/") and f"{of_type}::{last}" in functions:
            return functions[f"{of_type}::{last}"][1]
        if module_of(file) == home and last in functions:
            return functions[last][1]
    return []

def check_clauses():
    """A function in a column `contract` of docs/TRACE.md has a contract, and the clause named behind it is one of its."""
    column = None
    for number, line in prose_of(TRACE):
        cells = [cell.strip() for cell in line.split("|")]
        column = cells.index("contract") if "contract" in cells else column if len(cells) > 1 else None
        for name in re.findall(r"`(\w+(?:::\w+)*::[a-z]\w*)`", cells[column]) if column else ():
            if not clauses_of(name):
                fault(TRACE, number, f"no contract of `{name}`")
        behind = re.findall(r"`(\w+(?:::\w+)+)` \(clauses? ((?:`\w+`(?:, | and )?)+)\)", line)
        for name, clause in ((name, clause) for name, those in behind for clause in re.findall(r"\w+", those.replace(" and ", " "))):
            counts["names"] += 1
            if clause not in clauses_of(name):
                fault(TRACE, number, f"no clause `{clause}` of `{name}`")
        if len(behind) < len(re.findall(r"\bclauses? `", line)):
            fault(TRACE, number, "a clause without its function in front: `crate::function` (clause `name`)")
