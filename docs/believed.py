#!/usr/bin/env python3
"""The definitions that a reader has to believe: what the contract of the top call cites, and what these cite in turn.

    docs/believed.py            compares the list in docs/ARCHITECTURE.md with the tree; status 1 where they differ
    docs/believed.py --list     prints each file with its definitions, in no order

The roots are the names in the clauses of `prolog_command`. A name leads to the definition that the file's `use` lines
name, or that stands in the file itself; a definition of the toolchain's library leads no further. A type of the
code (`specs.declared`) leads to the file that declares it, and to the types of its fields. The list in
docs/ARCHITECTURE.md names files, `CRATE/specs/NAME.antt`, further ones of the same crate by `NAME.antt` behind it.
"""
import os
import re
import sys

TOP = os.path.dirname(os.path.dirname(os.path.realpath(__file__)))
ROOT = "prolog_command"
WORD = re.compile(r"[^\s(){}\[\];,∷→λ:=]+")
USE = re.compile(r"^\s*(?:ghost )?use Rattle\.([\w.+-]+?)(?:\.\{([^}]*)\})?(?: as (\S+?))?;?\s*$", re.M)
HEAD = re.compile(r"^(?:unfoldable |abbrev )?(?:pub )?(?:data |record |abbrev |unfoldable )?(?:pub )?([^\s:(]+)")


def crates():
    folder = os.path.join(TOP, "crates")
    return sorted(name for name in os.listdir(folder) if os.path.isdir(os.path.join(folder, name, "src")))


def read(path):
    with open(path, encoding="utf-8") as file:
        return file.read()


def imports(text):
    """name -> (module, name there), and alias -> module."""
    names, modules = {}, {}
    for module, items, alias in USE.findall(text):
        if items:
            for item in items.split(","):
                there, _, here = item.strip().partition(" as ")
                names[(here or there).strip()] = (module, there.strip())
        else:
            modules[alias or module.rsplit(".", 1)[-1]] = module
    return names, modules


def without_comments(text):
    return re.sub(r"(^|\s)--( .*|)$", r"\1", text, flags=re.M)


def blocks(text):
    """name -> the text of its definition: from the line that names it to the next name at a line's start."""
    found, name, mutual = {}, None, False
    for line in without_comments(text).splitlines():
        if line and not line[0].isspace():
            mutual = re.match(r"(abbrev |unfoldable )?mutual\b", line)
        if mutual and line.startswith("  "):
            line = line[2:]
        if line and not line[0].isspace() and not line.startswith(("use ", "pub use", "open ", "infix", "unfolding", "mutual", "abbrev mutual", "unfoldable mutual")):
            name = HEAD.match(line).group(1)
        if name and not line.startswith("use "):
            found[name] = found.get(name, "") + line + "\n"
    return found


class Tree:
    def __init__(self):
        self.files = {}  # module -> (path, names, modules, blocks)
        self.sources = {}  # crate -> text of all its src
        for crate in crates():
            specs = os.path.join(TOP, "crates", crate, "specs")
            for folder, _, files in os.walk(specs):
                for name in files:
                    if name.endswith(".antt"):
                        self.add(crate, specs, os.path.join(folder, name))
        self.members = {}  # constructor or field -> the data or record that has it
        for module, (_, _, _, found) in self.files.items():
            for name, text in found.items():
                if re.match(r"^(pub )?(data|record)\b", text):
                    for member in re.findall(r"^\s+(?:pub )?([^\s:{}()]+)(?: [^\s:]+)* :", text, flags=re.M):
                        self.members[(module, member)] = name

    def add(self, crate, specs, path):
        inside = os.path.relpath(path, specs)[:-5].replace(os.sep, ".")
        text = read(path)
        names, modules = imports(text)
        self.files[f"{crate}.specs.{inside}"] = (os.path.relpath(path, TOP), names, modules, blocks(text))

    def rust(self, crate, type_name):
        """The file that declares a type of the code, and the text of its declaration with its model."""
        folder = os.path.join(TOP, "crates", crate, "src")
        for here, _, files in os.walk(folder):
            for name in sorted(files):
                path = os.path.join(here, name)
                text = read(path) if name.endswith(".rt") else ""
                found = re.search(rf"^pub(?:\(crate\))? (?:struct|enum) {type_name}\b.*?^}}|^pub (?:struct|enum) {type_name}\b[^\n]*;", text, flags=re.M | re.S)
                if found:
                    model = re.search(rf"^impl Model for {type_name} {{.*?^}}", text, flags=re.M | re.S)
                    return os.path.relpath(path, TOP), text, found.group(0), model.group(0) if model else ""
        return None


def closure(tree):
    seen, types, todo = {}, {}, []

    def cite(word, names, modules, module):
        head, dot, rest = word.partition(".")
        if word in names:
            target(*names[word])
        elif head in names:
            target(*names[head])
        elif head in modules and dot:
            target(modules[head], rest.split(".")[0])
        elif module and word in tree.files[module][3]:
            target(module, word)

    def target(module, name):
        declared = re.match(r"(\w+)\.specs\.(?:declared|contracts)\.(.+)", module)
        if declared:
            inner = declared.group(2).split(".")
            type_name = next((part for part in [*reversed(inner), name] if part[:1].isupper() and part != "TheVariants" and part != "TheConstants"), name)
            add_type(declared.group(1), type_name)
        elif module in tree.files:
            found = tree.files[module][3]
            owner = name if name in found else tree.members.get((module, name))
            if owner and (module, owner) not in seen:
                seen[(module, owner)] = tree.files[module][0]
                todo.append((module, owner))

    def add_type(crate, name):
        if (crate, name) in types:
            return
        found = tree.rust(crate, name)
        types[(crate, name)] = found[0] if found else None
        if found:
            _, text, declaration, model = found
            for line in model.splitlines():
                if line.strip().startswith("ghost use"):
                    names, _ = imports(line.strip())
                    for where in names.values():
                        target(*where)
            if not model:
                for word in re.findall(r"\b[A-Z]\w+\b", declaration):
                    use = re.search(rf"^use (\w+)::(?:[\w:]*::)?(?:\{{[^}}]*\b)?{word}\b", text, flags=re.M)
                    if use:
                        add_type(crate if use.group(1) in ("crate", "super") else use.group(1), word)
                    elif re.search(rf"^pub(?:\(crate\))? (?:struct|enum) {word}\b", text, flags=re.M):
                        add_type(crate, word)

    root = None
    for crate in crates():
        for here, _, files in os.walk(os.path.join(TOP, "crates", crate, "src")):
            for name in files:
                text = read(os.path.join(here, name)) if name.endswith(".rt") else ""
                found = re.search(rf"^pub fn {ROOT}\b.*?^\{{", text, flags=re.M | re.S)
                if found:
                    root = (text, found.group(0))
    if not root:
        sys.exit(f"no function {ROOT}")
    names, modules = imports(root[0])
    clauses = re.sub(r"^\s*//.*$", "", root[1].split("ensures", 1)[1], flags=re.M)
    for word in set(re.findall(r"[\w.]+", clauses)):
        cite(word, names, modules, None)
    while todo:
        module, name = todo.pop()
        _, names, modules, found = tree.files[module]
        text = found[name]
        for word in set(WORD.findall(text)):
            if word != name:
                cite(word, names, modules, module)
    return seen, {key: path for key, path in types.items() if path}


def listed():
    """The files of specs that docs/ARCHITECTURE.md names in its section."""
    text = read(os.path.join(TOP, "docs", "ARCHITECTURE.md"))
    section = text.split("## What a reader has to believe", 1)[1].split("\n## ", 1)[0]
    found, crate = [], None
    for quoted in re.findall(r"`([^`]+\.(?:antt|rt))`", section):
        if "/" in quoted:
            crate = quoted.rsplit("/", 1)[0]
            found.append(f"crates/{quoted}")
        elif crate:
            found.append(f"crates/{crate}/{quoted}")
    return found


def main():
    tree = Tree()
    seen, types = closure(tree)
    files = {}
    for (_, name), path in seen.items():
        files.setdefault(path, []).append(name)
    if "--list" in sys.argv[1:]:
        for path in sorted(files):
            print(f"{path}: {' '.join(sorted(files[path]))}")
        for path in sorted(set(types.values())):
            print(f"{path}: {' '.join(sorted(name for (_, name), where in types.items() if where == path))}")
        return
    said = listed()
    missing = [path for path in sorted(files) if path not in said]
    gone = [path for path in said if path.endswith(".antt") and path not in files]
    for path in missing:
        print(f"not in the list: {path}: {' '.join(sorted(files[path]))}")
    for path in gone:
        print(f"in the list, and not cited: {path}")
    print(f"{len(files)} files, {len(seen)} definitions, {len(types)} types of the code")
    sys.exit(1 if missing or gone else 0)


main()
