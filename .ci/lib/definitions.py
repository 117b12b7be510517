"""The definitions of this repository: the items of each crate's specs/ and src/, and what a name of a file means. `.ci/reading_list`, `.ci/answers` and
`.ci/documents` go by it; what only one of them asks stands there."""
import functools, os, re
from collections import namedtuple

TOP = os.path.dirname(os.path.dirname(os.path.dirname(os.path.realpath(__file__))))

# An item: the file, its name, the first line and the line behind the last, and its text without comments.
Item = namedtuple("Item", "file name first end text")
NAME = r"[^\W\d][\w'?!-]*|◌[^\s,(){}]+◌"
FORMS = ("abbrev ", "unfoldable ", "pub ")
HEAD = re.compile(r"^(?:abbrev |unfoldable )?(?:pub )?(?:record |data )?(%s)" % NAME)
RUST_ITEM = re.compile(r"^(?:pub(?:\([a-z]+\))? )?(struct|enum|trait|const|fn|impl|type|mod|use|ghost|static)\b")


# What is spoken of and not found.
unfound = set()


def lines_of(path):
    with open(os.path.join(TOP, path), encoding="utf-8") as file:
        return file.read().split("\n")


def without_comment(line, mark):
    return "" if line.lstrip().startswith(mark) else line


def trimmed(lines, first, end):
    """The range without blank lines and comments at its end, which belong to what follows."""
    while end > first and (not lines[end - 1].strip() or lines[end - 1].startswith(("--", "//"))):
        end -= 1
    return end


@functools.lru_cache(None)
def spec_items(path):
    """The items of a file of specs/, by their names."""
    lines, items, name, start = lines_of(path), {}, None, 0

    def close(end):
        if name and name not in items:
            last = trimmed(lines, start, end)
            text = "\n".join(without_comment(line, "--") for line in lines[start:last])
            items[name] = Item(path, name, start, last, text)

    for at, line in enumerate(lines):
        if not line or line[0].isspace() or line.startswith("--"):
            continue
        head = HEAD.match(line)
        found = head and head.group(1)
        if line.startswith(("use ", "pub use ", "pub mod ")):
            close(at)
            name = None
        elif found and " pub " in line.split(":")[0] and not line.startswith(FORMS):
            unfound.add(f"{path}:{at + 1}: {line}")
        elif found and (line.startswith(FORMS) or name is None):
            close(at)
            name, start = found, at
    close(len(lines))
    return items


def block_end(lines, first):
    """The line behind the item that begins at this line of a source."""
    depth, seen = 0, False
    for at in range(first, len(lines)):
        code = re.sub(r'"[^"]*"|//.*', "", lines[at])
        depth += code.count("{") - code.count("}")
        seen = seen or "{" in code
        if (seen and depth <= 0) or (not seen and code.rstrip().endswith(";")):
            return at + 1
    return len(lines)


@functools.lru_cache(None)
def rust_items(path):
    """The types, constants and traits of a source, and what a type's values are seen as, each under its name."""
    lines, items = lines_of(path), {}
    for at, line in enumerate(lines):
        kind = RUST_ITEM.match(line)
        if not kind:
            continue
        named = re.search(r"\b(?:struct|enum|trait|const|type)\s+(\w+)", line)
        model = re.match(r"impl(?:<.*?>)? Model for (\w+)", line)
        if kind.group(1) in ("struct", "enum", "trait", "const", "type") and named:
            name = named.group(1)
        elif model:
            name = "Model for " + model.group(1)
        else:
            continue
        end = block_end(lines, at)
        items[name] = Item(path, name, at, end, "\n".join(without_comment(it, "//") for it in lines[at:end]))
    return items


def files_of(crate, folder, ending):
    """The files of a crate's folder that end so, from the top, in the order of their names."""
    found = []
    for at, _, names in os.walk(os.path.join(TOP, "crates", crate, folder)):
        found += [os.path.relpath(os.path.join(at, name), TOP) for name in names if name.endswith(ending)]
    return sorted(found)


@functools.lru_cache(None)
def sources_of(crate):
    return files_of(crate, "src", ".rt")


@functools.lru_cache(None)
def specs_of(crate):
    return files_of(crate, "specs", ".antt")


def imported(text):
    """The names of an import's braces, as pairs of the name here and the name there."""
    for part in filter(None, (it.strip() for it in text.split(","))):
        there, _, here = part.partition(" as ")
        yield (here.strip() or there.strip()), there.strip()


@functools.lru_cache(None)
def imports_of(path):
    """What each name means that a file imports: the path of the module, and the name in it, None for a module as a whole."""
    found = {}
    text = "\n".join(lines_of(path))
    for module, names in re.findall(r"^\s*(?:pub |ghost )?use ([\w.]+?)\.\{([^}]*)\}", text, re.M):
        for here, there in imported(names):
            found[here] = (module, there)
    for module, here in re.findall(r"^\s*(?:pub |ghost )?use ([\w.]+?)(?: as (\w+))?;?$", text, re.M):
        found.setdefault(here or module.split(".")[-1], (module, None))
    for crate, names in re.findall(r"^(?:pub )?use (\w+)(?:::\w+)*::(\{[^}]*\}|\w+);", text, re.M):
        for here, there in imported(names.strip("{}")):
            found.setdefault(here, ("rust " + (path.split("/")[1] if crate == "crate" else crate), there))
    return found


@functools.lru_cache(None)
def in_rust(crate, name):
    """The item that a crate's sources have under this name, or that it exports of another crate."""
    for path in sources_of(crate):
        if name in rust_items(path):
            return rust_items(path)[name]
    module, there = imports_of(f"crates/{crate}/src/lib.rt").get(name) or ("", None)
    return item_of(module, there) if there and module.startswith("rust ") and module != "rust " + crate else None


@functools.lru_cache(None)
def in_specs(module, name):
    """The item that a module of specs/ has under this name, its own or one that it exports."""
    _, crate, _, *parts = module.split(".")
    path = os.path.join("crates", crate, "specs", *parts) + ".antt"
    if os.path.exists(os.path.join(TOP, path)):
        if name in spec_items(path):
            return spec_items(path)[name]
        again = imports_of(path).get(name)
        return item_of(*again) if again and again[1] else None
    # A constructor, by its type.
    above = os.path.join("crates", crate, "specs", *parts[:-1]) + ".antt"
    if len(parts) > 1 and os.path.exists(os.path.join(TOP, above)) and parts[-1] in spec_items(above):
        return spec_items(above)[parts[-1]]
    # A module of another crate that this one exports.
    library = f"crates/{crate}/specs/Lib.antt"
    again = imports_of(library).get(parts[0]) if os.path.exists(os.path.join(TOP, library)) else None
    return item_of(".".join([again[0], *parts[1:]]), name) if again and again[1] is None else None


def is_ours(crate):
    return os.path.isdir(os.path.join(TOP, "crates", crate))


def item_of(module, name):
    """The item of this repository that a name of a module means, or None for one of the kit."""
    if module.startswith("rust "):
        crate = module[5:]
        return in_rust(crate, name) if is_ours(crate) else None
    parts = module.split(".")
    if len(parts) < 3 or parts[0] != "Rattle" or not is_ours(parts[1]):
        return None
    if "declared" not in parts:
        return in_specs(module, name)
    # A Rust item: a constant by its name, a variant or a trait's ghosts by their type, a type by its name.
    rust = parts[parts.index("declared") + 1:]
    if rust[-1] == "TheConstants":
        return in_rust(parts[1], name)
    return in_rust(parts[1], rust[-2] if rust[-1] == "TheVariants" else rust[-1])


def near_items(path):
    """The items of the same file, and for a source those of its crate."""
    if path.endswith(".antt"):
        return spec_items(path)
    crate = path.split("/")[1]
    found = {}
    for source in sources_of(crate):
        found.update(rust_items(source))
    return found
