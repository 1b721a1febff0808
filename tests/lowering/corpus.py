"""Published modules, fetched from Debian's source packages into a folder outside the repository, and their groups."""
import dataclasses
import pathlib
import re
import subprocess

SUITE = "erlang/lib/asn1/test/asn1_SUITE_data"
DISSECTORS = "wireshark/epan/dissectors/asn1"
KEYRING = "/usr/share/keyrings/debian-archive-keyring.gpg"
DEFINED = re.compile(r"(?<![\w-])DEFINITIONS\b[^:]*::=\s*BEGIN\b")
NAMED = re.compile(r'(?<![\w-])([A-Z][\w-]*)\s*(?:\{[^{}]*\}\s*)?(?:"[^"]*"\s*)?$')
ASSIGNED = re.compile(
    r"(?<![\w-])(?:([a-z][\w-]*)\s+)?([A-Z][\w-]*)\s*(?:\{[^{}]*\})?\s*::=\s*(?!CLASS\b|BEGIN\b|MACRO\b|\{)")
SOURCES = re.compile(r"\bIMPORTS\b(.*?);", re.S)

# Modules among the single files of Erlang's tests that were published for protocols in BER or DER; the others are made
# for tests, or belong to protocols in PER.
PUBLISHED = re.compile(
    r"^(PKIX|Mvrasn|TCAP|CAP|CCSNARG|IN-CS|INAP|UpperBounds|UsefulDefinitions|SelectedAttributeTypes|"
    r"InformationFramework|DirectoryAbstractService|ELDAP|LDAP|SSL-PKIX|Remote-Operations|MAP-|MEDIA-|OLD-MEDIA)")


@dataclasses.dataclass(frozen=True)
class Module:
    """A module: its name, the modules that it imports from, whether it has types, its file and where it is in that."""

    name: str
    file: pathlib.Path
    imports: tuple[str, ...]
    has_types: bool
    begin: int
    end: int


@dataclasses.dataclass
class Specification:
    """Modules that were published together."""

    name: str
    modules: list[Module]


def fetch(cache: pathlib.Path) -> None:
    """Puts the modules of the packages wireshark and erlang into the cache, where they aren't there yet."""
    apt, packages = cache / "apt", cache / "src"
    for folder in (apt / "lists/partial", apt / "cache/archives/partial", packages):
        folder.mkdir(parents=True, exist_ok=True)
    name = re.search(r'(?m)^VERSION_CODENAME="?(\w+)', pathlib.Path("/etc/os-release").read_text()).group(1)
    (apt / "sources.list").write_text(
        f"deb-src [signed-by={KEYRING}] http://deb.debian.org/debian {name} main\n"
        f"deb-src [signed-by={KEYRING}] http://deb.debian.org/debian-security {name}-security main\n")
    options = ["-o", f"Dir::Etc::SourceList={apt}/sources.list", "-o", "Dir::Etc::SourceParts=/dev/null",
               "-o", f"Dir::State::Lists={apt}/lists", "-o", f"Dir::Cache={apt}/cache", "-q"]
    if not list(packages.glob("wireshark_*.orig.*")) or not list(packages.glob("erlang_*.orig.*")):
        subprocess.run(["apt-get", *options, "update"], check=True)
        words = ["source", "--download-only", "wireshark", "erlang"]
        subprocess.run(["apt-get", *options, *words], cwd=packages, check=True)
    for package, patterns in (("wireshark", ["*/epan/dissectors/asn1/*"]), ("erlang", ["*.asn", "*.asn1"])):
        if not (cache / package).is_dir():
            (cache / package).mkdir()
            archive = next(packages.glob(f"{package}_*.orig.*"))
            words = ["-C", str(cache / package), "--strip-components=1", "--wildcards", *patterns]
            subprocess.run(["tar", "-xf", str(archive), *words], check=True)


def text_of(path: pathlib.Path) -> str:
    raw = path.read_bytes()
    try:
        return raw.decode()
    except UnicodeDecodeError:
        return raw.decode("latin-1")


def without_comments(text: str) -> str:
    """The text with blanks in the place of comments."""
    return re.sub(r'"[^"]*"|/\*.*?\*/|--.*?(?:--|$)', lambda found: found.group() if found.group().startswith('"') else
                  " " * len(found.group()), text, flags=re.S | re.M)


def modules_in(path: pathlib.Path) -> list[Module]:
    """The modules of a file."""
    text = without_comments(text_of(path))
    before = [(max(0, head.start() - 1000), head) for head in DEFINED.finditer(text)]
    named = [(NAMED.search(text[begin : head.start()]), begin, head) for begin, head in before]
    heads = [(name, head) for name, _, head in named if name]
    places = [begin + name.start() for name, begin, _ in named if name] + [len(text)]
    found = []
    for number, (name, head) in enumerate(heads):
        body = text[head.end() : places[number + 1]]
        imported = SOURCES.search(body)
        names = re.findall(r"\bFROM\s+([A-Z][\w-]*)", imported.group(1)) if imported else []
        assigned = ASSIGNED.finditer(body, imported.end() if imported else 0)
        typed = any(not one.group(1) and one.group(2) != "IDENTIFIER" for one in assigned)
        begin, end = places[number] if number else 0, places[number + 1]
        found.append(Module(name.group(1), path, tuple(dict.fromkeys(names)), typed, begin, end))
    return found


def files(folder: pathlib.Path) -> list[pathlib.Path]:
    found = [path for path in folder.rglob("*") if path.suffix in (".asn", ".asn1") and ".set." not in path.name]
    return sorted(path for path in found if path.is_file())


def sources(cache: pathlib.Path) -> list[tuple[str, list[pathlib.Path], bool]]:
    """Specifications by name, with their files, and whether they are sent in BER or DER."""
    found = []
    for folder in sorted((cache / DISSECTORS).iterdir()):
        rules = folder / "CMakeLists.txt"
        if rules.is_file() and files(folder):
            flags = re.search(r"A2W_FLAGS([^)]*)\)", rules.read_text())
            found.append((folder.name, files(folder), bool(flags) and "-b" in flags.group(1).split()))
    suite = cache / SUITE
    for name in ("rfcs", "tcapsystem", "modified_x420"):
        found.append((f"erlang {name}", files(suite / name), True))
    single = [path for path in files(suite) if path.parent == suite and PUBLISHED.match(path.name)]
    found.append(("erlang tests", single, True))
    for name in ("public_key", "eldap", "megaco"):
        found.append((f"erlang {name}", files(cache / "erlang/lib" / name), True))
    return found


def specifications(cache: pathlib.Path) -> tuple[list[Specification], dict[str, dict[str, Module]]]:
    """Those in BER or DER, each module counted once; and for each the modules that it may import, nearest first."""
    every: dict[str, Module] = {}
    own: dict[str, dict[str, Module]] = {}
    ordered = []
    for name, paths, is_ber in sources(cache):
        modules = [module for path in paths for module in modules_in(path)]
        own[name] = {module.name: module for module in reversed(modules)}
        for module in modules:
            every.setdefault(module.name, module)
        ordered.append((name, modules, is_ber))
    counted, found = set(), []
    for name, modules, is_ber in ordered:
        fresh = [module for module in own[name].values() if module.name not in counted and module.has_types]
        counted.update(module.name for module in modules)
        if is_ber and fresh:
            found.append(Specification(name, sorted(fresh, key=lambda module: module.name)))
    return found, {name: {**every, **mine} for name, mine in own.items()}


def put_down(modules: list[Module], folder: pathlib.Path) -> list[pathlib.Path]:
    """The files of modules; of a file in which there are others too, a part of its own in the folder."""
    found = []
    for module in modules:
        text = text_of(module.file)
        if (module.begin, module.end) == (0, len(text)):
            found.append(module.file)
        else:
            folder.mkdir(parents=True, exist_ok=True)
            found.append(folder / f"{module.name}.asn1")
            found[-1].write_text(text[module.begin : module.end])
    return found


def needed(module: Module, known: dict[str, Module]) -> list[Module]:
    """A module and all that it imports, at any depth."""
    found, waiting = [], [module]
    while waiting:
        one = waiting.pop()
        if one not in found:
            found.append(one)
            waiting += [known[name] for name in one.imports if name in known]
    return found
