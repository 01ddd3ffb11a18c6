"""The examples of a page: answers, which are stored answers of the programs, and blocks, which are parts of a file."""
import re
from textwrap import dedent

from checks.repository import FILES, counts, fault, lines_of
from checks.sources import CODE, PROGRAMS

# ---- typed lines and their answers

def replayed(crate):
    """(command, answer) of a program's lines: each line with a command answers one line; `help` alone, of words and of
    refusals many, and `draw`, if it answers `cells N`, N more."""
    lines, answers = f"crates/{crate}/{PROGRAMS[crate]}", FILES[f"crates/{crate}/stdout"].split("\n")[:-1]
    variants = lambda enum: sum(1 for name in CODE if re.match(rf"commands::{enum}::[A-Z][a-z]", name))
    commands = int(re.search(r"COMMANDS: \[Command; (\d+)\]", FILES["crates/commands/src/command.rt"])[1])
    many = {"help": commands + 2, "help words": variants("usage_word::UsageWord"), "help refused": variants("kind::Kind")}
    told = []
    for _, line in lines_of(lines):
        command = " ".join(re.split(r"[ \t]+", line.removesuffix("\r").strip(" \t")))
        if 4096 < len(line.encode("utf-8", "surrogateescape")) or command and command[0] != "#":
            cells = re.fullmatch(r"cells (\d+)", answers[len(told)]) if command == "draw" and len(told) < len(answers) else None
            told += [command] * (1 + int(cells[1]) if cells else many.get(command, 1))
    if len(told) != len(answers):
        fault(f"crates/{crate}/stdout", 1, f"{len(answers)} lines, and {len(told)} are answered of {lines}")
    return zip(told, answers)

def read_answers():
    """command -> its answers in all programs. Up to three commands in turn have a key too, joined as a page joins them; the
    empty key has all answers of `errors`."""
    answers = {}
    for program in PROGRAMS:
        turns = []
        for typed, answered in replayed(program):
            turns = [*turns[-2:], typed]
            for first in range(len(turns)):
                answers.setdefault("`, then `".join(turns[first:]), set()).add(answered)
            if program == "errors":
                answers.setdefault("", set()).add(answered)
    return answers

ANSWERS = read_answers()

def examples_of(path):
    """(line, command or nothing, answer): `→ answer` below a command, "`command` answers `answer`", rows of tables
    that have a column `answer` or `answered`, and perhaps one `typed`, in which commands may stand "`one`, then `other`"."""
    command, columns = "", {}
    for number, line in lines_of(path):
        cells = [cell.strip() for cell in re.split(r"(?<!\\)\|", line)] if line.startswith("|") else []
        yield from ((number, *pair) for pair in re.findall(r"`(\w+ [^`]+)` answers `([^`]+)`", line))
        if line.startswith("→ "):
            yield number, command, line[2:]
        elif not cells:
            command, columns = command if line.startswith("#") else line, {}
        elif {"answer", "answered"} & set(cells):
            columns = {cell.removesuffix("ed"): place for place, cell in enumerate(cells)}
        elif columns and (answer := re.fullmatch(r"`(.*)`", cells[columns["answer"]])):
            typed = re.fullmatch(r"`([^`]*(`, then `[^`]*)*)`", cells[columns.get("typ", 0)])
            yield number, typed[1].replace("\\|", "|") if typed else "", answer[1].replace("\\|", "|")
        elif "typ" in columns and not line.startswith("|--"):
            fault(path, number, "a row with `typed` needs its answer in backticks")

def check_examples(path):
    """Each example is a line that a program replays; an answer without a line is one of `crates/errors`."""
    for number, command, answer in examples_of(path):
        counts["examples"] += 1
        shape = re.escape(answer.removesuffix("..")) + (".*" if answer.endswith("..") else "")  # it may be cut short
        if answer.startswith("refused"):
            shape = re.sub("[A-Z]+", r"\\d+", shape)
        if not any(re.fullmatch(shape, known) or known == answer for known in ANSWERS.get(command, ())):
            fault(path, number, f"no program answers `{answer}`" + (f" to `{command}`" if command else ""))

# ---- fenced blocks

def check_blocks(path):
    """A fenced block below a line that names a file is a part of it, indentation aside; code has such a line."""
    lines = FILES[path].split("\n")
    fences = [at for at, line in enumerate(lines) if line.startswith("```")]
    for first, last in zip(fences[::2], fences[1::2]):
        above = next((line for line in reversed(lines[:first]) if line.strip()), "")
        files = [file for file in re.findall(r"`([^`]+)`", above) if file in FILES]
        block, size = dedent("\n".join(lines[first + 1:last])), last - first - 1
        if "\n→ " in block or not (files or lines[first][3:] in ("c", "rust", "rattle")):
            continue
        counts["examples"] += 1
        parts = (text[at:at + size] for text in (FILES[file].split("\n") for file in files) for at in range(len(text)))
        if not block.strip() or all(dedent("\n".join(part)) != block for part in parts):
            fault(path, first + 1, f"this block is no part of {' or '.join(files) or 'a file that the line above it names'}")
