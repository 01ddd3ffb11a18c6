"""What a page names, and what it links to: names of the sources, paths, files and headings; and the words that no file may say."""
import os
import re
from functools import cache
from pathlib import Path

from checks.repository import (FILES, INDENTED, LINK, PATHS, PORT, TRACE,
                               cited_as, counts, exists, fault, lines_of, outside_blocks, prose_of)
from checks.sources import CODE, CRATES, MEMBERS, PROGRAMS, SPECS, WORDS

# Not looked up: names that stand for any other, names of std, of the kit and of strided-rs.
SAMPLES = re.compile(r"^(crates/)?crate(/|::)|\b(File|X)\.|^(crate/)?CLAIMS\.field$|\.x$|\bF/|: HEADING$|(^|/)NAME(/|$)")
NOT_OURS = re.compile(r"(std|core|alloc|hex|bstr|memchr|clap|thiserror|[ui]\d+|[ui]size|Vec|Option|Result|String|Strided\w+)(::|/)"
                      r"|(chunks_exact_mut|read_until|Strided\w+|ViewMeta|base_ptr|arrayvec_from_slice)$")
# Words that point out of the repository, to pages or places that its reader has not; the last, two digits, may stand among hexadecimal bytes.
FOREIGN = re.compile(r"[Dd]ocument 0\d*|[Ss]ource document|[Dd]emand \d|[Ss]tarred|[Tt]his paper|[Ss]teps? [1-6]\b"
                     r"|\bCR ?\d+|\b[Ii]ssue \d+|/(?:home|root|work)/\w+|(?<![\w.:-])0[12](?![\w:-])(?!\.\d)")
BYTES = re.compile(r"\b[0-9A-Fa-f]{2} [0-9A-Fa-f]{2}\b")

# ---- names and paths

def has_code(name):
    """Whether there is code of this name; a method counts to its type, wherever the crate has it."""
    crate, (home, _, last) = name.split("::")[0], name.rpartition("::")
    if crate not in CRATES:
        return name in {member for _, member in MEMBERS}
    return name in CODE or home in CODE and (crate, f"{home.split('::')[-1]}::{last}") in MEMBERS

def check_name(path, number, token):
    """Whether a token is a name of code, of specs, of an edit or of replayed lines; if so it has to be there."""
    spec, edit = re.fullmatch(r"(\w+/)?([A-Z]\w*(?:\.[^\s./]+)?)", token), re.fullmatch(r"(\w+)/([a-z]\w*)", token)
    if spec and re.search(r"[./]", token) and not re.search(r"\.(antt|toml|md|rt|rs|lock)$", token):
        homes = [spec[1]] if spec[1] else ["specification/"] if path == TRACE else [f"{crate}/" for crate in CRATES]
        found = any(home + spec[2] in SPECS for home in homes)
    elif re.fullmatch(r"\w+(::\w+)+", token):
        found = has_code(token)
    elif edit and edit[1] in CRATES:
        found = any(exists(f"crates/{edit[1]}/{kept}/{edit[2]}.edit") for kept in ("must-fail", "wrong", "statements"))
        found = found or exists(f"crates/{token}") or exists(token)
    elif heading := re.fullmatch(r"(?:(examples|errors): )?((?<=: ).+|why \d+)", token):
        program = heading[1] or "examples"
        found = re.search(rf"^# {re.escape(heading[2])}\b", FILES[f"crates/{program}/{PROGRAMS[program]}"], re.M)
    elif re.fullmatch(r"[a-z]\w*_\w+|[A-Z]\w*[a-z][A-Z]\w*", token):
        found = token in WORDS
    else:
        return False
    counts["names"] += 1
    if not found:
        fault(path, number, f"no name `{token}`")
    return True

def check_path(path, number, token):
    """A token that begins like a path of the repository, or ends like one of its files, has to be one."""
    word = token.split()[0] if re.match(r"[\w.*+-]+(/[\w.*+-]+)*/?(\s|$)", token) else ""
    top = word.split("/")[0]
    known = word if exists(top) else f"crates/{word}" if top in CRATES and "/" in word else f"**/{word}"
    if re.search(r"\w", word) and (known[0] != "*" or re.search(r"\.(antt|rt|edit|txt|md|svg|toml|h|c)$|/$", word)):
        counts["paths"] += 1
        if not exists(known):
            fault(path, number, f"no path `{word}`")

def check_names(path):
    """The backticked names and paths of a page, and the names that it says stand in a file."""
    for number, line in prose_of(path) if path != PORT else ():
        for token in re.findall(r"`([^`]+)`", line):
            token = token.removesuffix("()")
            if not (SAMPLES.search(token) or NOT_OURS.match(token) or check_name(path, number, token)):
                check_path(path, number, token)
        for names, file in re.findall(r"((?:`[^`]+`(?: \([^)]*\))?(?:, and |, | and )?)+) in `([\w/]+\.\w+)`", line):
            texts = [FILES[known] for known in FILES if f"/{known}".endswith(f"/{file}")]
            for name in re.findall(r"`(?:[\w.:-]+[.:])?(?!antt|rt)([\w?'-]+)`", names):
                counts["names"] += 1
                if not any(re.search(rf"(?<![\w-]){re.escape(name)}(?![\w-])", text) for text in texts):
                    fault(path, number, f"no `{name}` in `{file}`")

# ---- links, and words that point out of the repository

@cache
def anchors_of(path):
    """anchor -> the names that stand there: of the heading, without what it has in brackets, and of the rules in bold below it.
    An anchor is what a link has behind its `#`, as GitHub makes it of a heading: in lower case, without punctuation, a dash for
    each space, and `-1`, `-2`, .. behind one that a heading above has already."""
    anchors, names = {}, []
    for _, line in prose_of(path):
        if heading := re.match(r"#{1,6} +(.*)", line):
            first = re.sub(r"[^\w -]", "", heading[1].strip().lower()).replace(" ", "-")
            repeated = (f"{first}-{number}" for number in range(1, len(anchors) + 1))
            names = [cited_as(heading[1])]
            anchors[next(anchor for anchor in (first, *repeated) if anchor not in anchors)] = names
        elif rule := re.match(r"- \*\*(.+?)\*\*", line):
            names.append(rule[1].rstrip(".,"))
    return anchors

def check_links(path):
    """The file or folder that a link names is there; what stands behind its `#` is the anchor of a heading there; and if
    the link's words quote a heading or a rule of that page, this one stands at the anchor."""
    for number, line in outside_blocks(path):
        for words, target in LINK.findall("" if INDENTED.match(line) else line):
            if not target or re.match(r"\w+:", target):
                continue
            counts["links"] += 1
            file, _, anchor = target.partition("#")
            there = os.path.normpath(os.path.join(os.path.dirname(path), file)) if file else path
            anchors = anchors_of(there) if there.endswith(".md") and there in FILES else {}
            if there not in PATHS:
                fault(path, number, f"a link to {target}: no path {there}")
            elif anchor and anchor not in anchors:
                fault(path, number, f"a link to {target}: no such heading in {there}")
            for name in re.findall(r'"([^"]+)"', words):
                homes = [home for home, names in anchors.items() if name in names]
                if homes and anchor not in homes:
                    fault(path, number, f"a link to {target}: \"{name}\" stands in {there}#{homes[0]}")

def check_named(path):
    """A page that is named in another, by its path or by its name alone, is a link; in headings and in code it need not be."""
    stems = {Path(page).stem for page in FILES if re.fullmatch(r"(docs/|bench/)?[A-Z-]+\.md", page)} - {Path(path).stem}
    named = re.compile(rf"(?<![\w/.$-])(?:[\w/]+/)?(?:{'|'.join(sorted(stems))})(?:\.md)?(?![\w/]|-\w|\.\w)|[\w/-]+\.md\b")
    for number, line in outside_blocks(path):
        for name in named.findall("" if INDENTED.match(line) or line.startswith(("#", "<!--")) else LINK.sub("", line)):
            fault(path, number, f"{name} is named, and is no link")

def check_words(path):
    """No file points to a page or a place that its reader has not."""
    for number, line in lines_of(path):
        for word in FOREIGN.findall(line):
            if not re.fullmatch("0[12]", word) or not BYTES.search(line):
                fault(path, number, f"says `{word}`")
