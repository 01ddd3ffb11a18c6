"""What the sources have: the names of code and of specs, public functions, contracts, and what each wrong version spoils."""
import re
from functools import cache

from checks.repository import FILES, fault, lines_of

# Each program that replays typed lines, and the file that they stand in.
PROGRAMS = {"layout": "stdin", "examples": "data/lines", "errors": "stdin"}
# A line of code or of specs that something begins on.
ITEM = re.compile(r"(?:pub(?:\(crate\))? )?(?:extern \"C\" )?(fn|struct|enum|trait|type|const|static) (\w+)")
IMPL = re.compile(r"impl(?:<[^>]*>)? (?:.* for )?[&\[]*(\w+)")
MEMBER = re.compile(r"    (?:pub(?:\(crate\))? )?(?:(fn|const|type) (\w+)|(\w+):|([A-Z]\w*))")
DEFINED = re.compile(r"(?:  (?=[au]))?(?:unfoldable |abbrev )?pub (record |data )?(?!mod |use )(\S+)")
FIELD = re.compile(r"  (?:pub )?(?!abbrev |unfoldable )([^\s:-][^\s:]*(?: [^\s:]+)*) :")
CLAUSE = re.compile(r" +(requires|ensures) (\w+)? ?\{")
CHANGE = re.compile(r"^file: *(.*?) *$|^old: (.*)\n((?:new:.*\n?)+)", re.M)  # a line or more of an edit

# ---- names of code and of specs

def code_items(path):
    """(line, name, whether lines belong to it) of each item, method, field and variant of a code file."""
    block = None
    for number, line in lines_of(path):
        if item := ITEM.match(line):
            block = item[2] if item[1] in ("struct", "enum", "trait") else None
            yield number, item[2], True
        elif begun := IMPL.match(line):
            block = begun[1]
        elif block and (member := MEMBER.match(line)):
            yield number, f"{block}::{member[2] or member[3] or member[4]}", bool(member[1])

def spec_items(path):
    """(line, name, whether lines belong to it) of each definition of a specs file; of a field `Record.field`."""
    block = None
    for number, line in lines_of(path):
        if (field := FIELD.match(line)) and block:
            yield from ((number, f"{block}.{name}", False) for name in field[1].split())
        elif defined := DEFINED.match(line):
            block = defined[2] if defined[1] else None
            yield number, defined[2], True
        elif handed_on := re.match(r"pub use .*\{(.*)\}", line):
            yield from ((number, name, True) for name in handed_on[1].split(", "))

def module_of(file):
    """`crate::module` of a code file `crate/src/module.rt`."""
    return re.sub(r"(::lib|::main)?\.rt$", "", file.replace("/src/", "::"))

def read_code():
    """`crate::module::item` of all code, and of each crate `Type::member`; a crate hands on what it has by `pub use`."""
    names, members = set(), set()
    for path in FILES:
        if place := re.fullmatch(r"crates/((\w+)/src/\w+\.rt)", path):
            module, crate = module_of(place[1]), place[2]
            names |= {module} | {f"{module}::{name}" for _, name, _ in code_items(path)}
            names |= {f"{crate}::{name}" for name in re.findall(r"^pub use \S*?(\w+);", FILES[path], re.M)}
            members |= {(crate, name) for _, name, _ in code_items(path)}
    return names, members

def read_calls():
    """`function`, `Type::function` and `crate::function` of each public function of a crate."""
    names = set()
    for path in FILES:
        if place := re.fullmatch(r"crates/(\w+)/src/\w+\.rt", path):
            lines = FILES[path].split("\n")
            public = [name for number, name, _ in code_items(path) if re.match(r" *pub (extern \"C\" )?fn ", lines[number - 1])]
            names |= {*public, *(f"{place[1]}::{name}" for name in public)}
    return names

def read_specs():
    """`crate/File.name`, `crate/name` of each definition, `crate/Record.field` of each field and constructor."""
    names = set()
    for path in FILES:
        if place := re.fullmatch(r"crates/(\w+)/specs/(\w+)\.antt", path):
            for _, name, whole in spec_items(path):
                names |= {f"{place[1]}/{name}"} | ({f"{place[1]}/{place[2]}.{name}"} if whole else set())
    return names

@cache
def heads_of(path):
    """(line, name) of each function and definition of a file."""
    return [(line, name) for line, name, whole in (spec_items if path.endswith(".antt") else code_items)(path) if whole]

# ---- wrong versions, and contracts

def owner(path, offset):
    """(line, name) of the function or definition that a place in a file is part of; an attribute is of the next."""
    number, heads = FILES[path].count("\n", 0, offset) + 1, heads_of(path)
    if FILES[path].split("\n")[number - 1].lstrip().startswith(("#[", "///", "--")):
        return min((head for head in heads if head[0] > number), default=(number, "its end"))
    return max((head for head in heads if head[0] <= number), default=(0, "its imports"))

def read_edits():
    """(file, line, function or definition, edit, its folder) for each wrong version, by its first change below the imports.
    Each old text stands once in what the lines before it made. Of `statements` the files are named from the top."""
    seen = set()
    for path in FILES:
        if place := re.fullmatch(r"crates/(\w+)/(must-fail|wrong|statements)/(\w+)\.edit", path):
            crate, folder, edit = place.groups()
            texts, owners, file = {}, [], ""
            for change in CHANGE.finditer(FILES[path]):
                if change[1]:
                    file = change[1] if folder == "statements" else f"crates/{crate}/{change[1]}"
                    continue
                text, old = texts.setdefault(file, FILES.get(file, "")), change[2]
                if text.count(old) != 1:
                    fault(path, FILES[path].count("\n", 0, change.start()) + 1, f"its old text stands {text.count(old)} times in {file}")
                owners += [(file, *owner(file, FILES[file].find(old)))] if old in FILES.get(file, "") else []
                texts[file] = text.replace(old, "\n".join(re.findall("^new: ?(.*)$", change[3], re.M)))
            if not texts:
                fault(path, 1, "no `old:` line with a `new:` line behind it")
            if (crate, edit) in seen:
                fault(path, 1, "another wrong version of this crate has its name")
            seen.add((crate, edit))
            file, line, name = ([one for one in owners if one[1]] or owners or [(file, 0, "?")])[0]
            yield file.removeprefix("crates/"), line, name, f"{crate}/{edit}" if folder == "statements" else edit, folder

def read_contracts():
    """file -> {function: (its premises, its clauses)} of each function that has a contract; `–` is one without a name."""
    files = {}
    for path in FILES:
        if re.fullmatch(r"crates/\w+/src/\w+\.rt", path):
            for number, line in lines_of(path):
                if clause := CLAUSE.match(line):
                    name = max(head for head in heads_of(path) if head[0] <= number)[1]
                    both = files.setdefault(path.removeprefix("crates/"), {}).setdefault(name, ([], []))
                    both[clause[1] == "ensures"].append(clause[2] or "–")
    return files

CRATES = set(re.findall(r"^\w+", FILES["crates.txt"], re.M))
(CODE, MEMBERS), CALLS, SPECS, EDITS, CONTRACTS = read_code(), read_calls(), read_specs(), sorted(read_edits()), read_contracts()
# Each word of a file that is no page. What stands in this tool alone is no name of the repository.
WORDS = {word for path in FILES if not re.search(r"\.md$|^docs/check(s/.*)?$", path) for word in re.findall(r"\w+", FILES[path])}
