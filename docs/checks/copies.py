"""What stands in several places and has to be the same: the version, and the sentences of refusals."""
import re

from checks.repository import FILES, fault

# Where the version stands; the first is that of the newest entry.
VERSION = r"(\d+\.\d+\.\d+)"
VERSIONS = [
    ("CHANGELOG.md", rf"^## {VERSION}$"),
    ("bindings/c/strided.h", rf'^#define STRIDED_VERSION "{VERSION}"$'),
    ("bindings/c/strided.h", r"^#define STRIDED_VERSION_MAJOR (\d+)\n#define STRIDED_VERSION_MINOR (\d+)\n#define STRIDED_VERSION_PATCH (\d+)$"),
    ("bindings/rust/Cargo.toml", rf'^version = "{VERSION}"$'),
    ("bindings/rust/Cargo.lock", rf'^name = "strided-layouts"\nversion = "{VERSION}"$'),
    ("examples/rust/Cargo.lock", rf'^name = "strided-layouts"\nversion = "{VERSION}"$'),
    ("bindings/python/strided/__init__.py", rf'^__version__ = "{VERSION}"$'),
    ("crates/program/src/program.rt", rf'^const VERSION: &str = "{VERSION}";$'),
]

def check_versions():
    """Header, wrapper, module, text program and CHANGELOG.md have one version."""
    wanted = None
    for path, form in VERSIONS:
        found = re.search(form, FILES.get(path, ""), re.M)
        version = ".".join(found.groups()) if found else "none"
        wanted = wanted or version
        if version != wanted or not found:
            fault(path, FILES[path].count("\n", 0, found.start()) + 1 if found else 1, f"the version is {version}, in {VERSIONS[0][0]} {wanted}")

# Where a refusal's sentence stands: with its values, and with their names, which `help` shows.
SENTENCES, HELP = "crates/view/src/layout.rt", "crates/commands/src/kind.rt"

def check_sentences():
    """What `help` says of a refusal begins with the sentence in which the refusal prints itself, a name for each value."""
    printed = dict((name, text) for text, name in re.findall(r'#\[error\("([^"]+)"\)\]\s+(\w+)', FILES[SENTENCES]))
    told = re.findall(r'Kind::(\w+) => \(\s+"\d+",\s+"([^"]*)",\s+"([^"]+)"', FILES[HELP])
    for name, values, meaning in told:
        sentence = re.sub(r"\{(\d)\}", lambda value: values.split()[int(value[1])], printed.pop(name, "no sentence"))
        if not re.match(re.escape(sentence) + "(;|$)", meaning):
            fault(HELP, FILES[HELP].count("\n", 0, FILES[HELP].find(meaning)) + 1, f"{SENTENCES} says of {name}: {sentence}")
    for name in printed:
        fault(HELP, 1, f"no sentence for {name}, which {SENTENCES} has")
