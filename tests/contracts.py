"""The contracts of public functions, and the definitions that they rest on, read from the sources.

`Definitions` reads crates/*/specs/*.antt: each definition with its lines, and what it names. `Functions` reads crates/*/src/*.rt: each
public function with its clauses, what these name, and each type with its lines. What is named is looked up as the compiler does it: by
the imports of the file, of the implementation, and by the file's own names. A variable is told from a definition by where it is bound.
"""

import glob
import os
import re

from lib import ROOT

NAME = r"[^\W\d][\w'-]*"
TOKEN = re.compile(rf"--.*|//.*|\"(?:[^\"\\]|\\.)*\"|\.{NAME}|\.\d+|{NAME}|\d\w*|\S")
USE = re.compile(r"\b(pub )?use Rattle\.(\w+(?:\.\w+)*)(?:\.\{([^}]*)\}|\s+as\s+(\w+))?")


class Definition:
    """A definition, or a type of the code: its place, its lines from its comment on, and what it names."""

    def __init__(self, crate, file, name, kind, first, text):
        self.crate, self.file, self.name, self.kind, self.first = crate, file, name, kind, first
        self.text = text
        self.last = first + len(text) - 1
        self.names = set()

    @property
    def key(self):
        return self.crate, self.file, self.name

    @property
    def lines(self):
        return self.last - self.first + 1

    @property
    def path(self):
        return f"crates/{self.crate}/{self.file}"


def imports_of(text):
    """What the imports of a text give: each name with the module and the name there, and each module with its alias."""
    names, modules, passed_on = {}, {}, {}
    for pub, path, words, alias in USE.findall(text):
        if alias:
            modules[alias] = path
        for word in words.split(","):
            parts = word.split()
            if not parts:
                continue
            local = parts[-1]
            names[local] = (path, parts[0])
            if pub:
                passed_on[local] = (path, parts[0])
    return names, modules, passed_on


def tokens_of(lines):
    """The tokens of lines of code, without comments and texts."""
    found = []
    for line in lines:
        found += [token for token in TOKEN.findall(line) if not token.startswith(("--", "//", '"'))]
    return found


def is_name(token):
    return re.fullmatch(NAME, token) is not None


def bound_in(tokens, is_constructor):
    """The variables that are bound in an equation, a type or a record: those of patterns, lambdas, lets and binders."""
    bound = set()
    for i, token in enumerate(tokens):
        if token == "λ":
            j = i + 1
            # (one with its type is a binder)
            while j < len(tokens) and tokens[j] not in (".", "("):
                if is_name(tokens[j]) and not is_constructor(tokens[j]):
                    bound.add(tokens[j])
                j += 1
        elif token == "let":
            bound.add(tokens[i + 1])
        elif token in "({" and i + 1 < len(tokens):
            j = i + 1
            while j < len(tokens) and is_name(tokens[j]):
                j += 1
            if j > i + 1 and j < len(tokens) and tokens[j] == ":":
                bound.update(tokens[i + 1 : j])
    return bound


def used_in(tokens, bound):
    """The names that are used, and the pairs of an alias and the name behind it: no fields, and no variables."""
    used, qualified = set(), set()
    for i, token in enumerate(tokens):
        if not is_name(token):
            continue
        before = tokens[i - 1] if i else ""
        behind = tokens[i + 1] if i + 1 < len(tokens) else ""
        if behind[:1] == "." and is_name(behind[1:]):
            qualified.add((token, behind[1:]))
        if behind == "=" and before in ("{", ";"):
            continue
        if token not in bound:
            used.add(token)
    return used, qualified


def parts_of(definition, is_constructor):
    """The parts of a definition with the variables that are bound in each: of a function its type and its equations, which begin at the left
    margin; of a record its head and its fields, each of which sees those before it; of a type its constructors."""
    parts, part = [], []
    begins = r"  (?:pub )?[^\W\d][\w'-]* :" if definition.kind in ("record", "data") else re.escape(definition.name) + " "
    for number, line in enumerate(definition.text[definition.head :]):
        if number and re.match(begins, line):
            parts.append(part)
            part = []
        part = part + tokens_of([line])
    parts.append(part)
    seen = set()
    for number, part in enumerate(parts):
        bound = bound_in(part, is_constructor)
        if definition.kind == "record":
            bound |= seen
            seen |= bound_in(part, is_constructor) if number == 0 else {part[1]}
        elif definition.kind == "function" and number and "=" in part:
            left = part[1 : part.index("=")]
            bound |= {token for token in left if is_name(token) and not is_constructor(token) and token[0].islower()}
        yield bound, part


class Definitions:
    """All definitions of the crates cpm_*, and the types and functions that they come to."""

    def __init__(self, root=ROOT):
        self.root = root
        self.all = {}
        self.exports = {}
        self.constructors = set()
        self.modules = {}
        for path in sorted(glob.glob(f"{root}/crates/cpm*/specs/*.antt")):
            self.read_specs(path)
        for path in sorted(glob.glob(f"{root}/crates/cpm*/src/*.rt")):
            self.read_types(path)
        for definition in list(self.all.values()):
            self.resolve(definition)

    def read_specs(self, path):
        crate, name = path.split("/")[-3], os.path.basename(path)[: -len(".antt")]
        with open(path, encoding="utf-8") as file:
            lines = file.read().split("\n")
        if name == "Lib":
            return
        names, modules, passed_on = imports_of("\n".join(lines))
        self.modules[crate, f"specs/{name}.antt"] = (names, modules)
        self.exports[crate, name] = passed_on
        # (what has neither of these words is a lemma, which is proved and needn't be believed)
        head = re.compile(rf"(?:(?:abbrev|unfoldable) pub |pub (record|data) )({NAME}|◌\S+◌)")
        number = 0
        while number < len(lines):
            match = head.match(lines[number])
            if not match or match[2] == "use":
                number += 1
                continue
            first = number
            while first > 0 and lines[first - 1].startswith("--"):
                first -= 1
            last = number
            while last + 1 < len(lines) and lines[last + 1] != "" and not head.match(lines[last + 1]):
                last += 1
            # (an equation may stand behind an empty line)
            while last + 2 < len(lines) and lines[last + 1] == "" and lines[last + 2].startswith(match[2] + " "):
                last += 2
                while last + 1 < len(lines) and lines[last + 1] != "":
                    last += 1
            definition = Definition(crate, f"specs/{name}.antt", match[2], match[1] or "function", first + 1, lines[first : last + 1])
            definition.head = number - first
            self.all[definition.key] = definition
            self.exports[crate, name][match[2]] = (f"{crate}.specs.{name}", match[2])
            if match[1] == "data":
                for line in lines[number : last + 1]:
                    constructor = re.match(rf"  ({NAME}) :", line)
                    if constructor:
                        self.constructors.add(constructor[1])
                        self.exports[crate, name][constructor[1]] = (f"{crate}.specs.{name}", match[2])
            number = last + 1

    def read_types(self, path):
        """The types of a file of code, with their comments."""
        crate, name = path.split("/")[-3], os.path.basename(path)[: -len(".rt")]
        with open(path, encoding="utf-8") as file:
            lines = file.read().split("\n")
        head = re.compile(r"pub(?:\(crate\))? (?:struct|enum|type|trait) (\w+)")
        for number, line in enumerate(lines):
            match = head.match(line)
            if not match:
                continue
            first = number
            while first > 0 and lines[first - 1].startswith(("///", "#[")):
                first -= 1
            last = number
            if not re.search(r"(;|\})$", line):
                while lines[last] not in ("}", ");"):
                    last += 1
            definition = Definition(crate, f"src/{name}.rt", match[1], "type", first + 1, lines[first : last + 1])
            definition.head = number - first
            self.all[definition.key] = definition

    def place_of(self, path, name):
        """The key of what the import of a name from a module gives; None where it is no definition of these crates."""
        parts = path.split(".")
        if len(parts) < 3 or not parts[0].startswith("cpm") or parts[1] != "specs":
            return None
        if parts[2] == "declared":
            if len(parts) < 5:
                return None
            key = (parts[0], f"src/{parts[3]}.rt", parts[4])
            return key if key in self.all else None
        module = parts[0], parts[2]
        if module not in self.exports or name not in self.exports[module]:
            return None
        where, there = self.exports[module][name]
        if where == f"{module[0]}.specs.{module[1]}":
            return module[0], f"specs/{module[1]}.antt", there
        return self.place_of(where, there)

    def looked_up(self, used, qualified, names, modules, module):
        """The keys of names that are used where these imports hold."""
        found = set()
        for name in used:
            if name in names:
                key = self.place_of(*names[name])
            elif module and name in self.exports.get(module, {}):
                key = self.place_of(f"{module[0]}.specs.{module[1]}", name)
            else:
                key = None
            if key:
                found.add(key)
        for alias, name in qualified:
            if alias in modules:
                key = self.place_of(modules[alias], name)
                if key:
                    found.add(key)
        return found

    def resolve(self, definition):
        if definition.kind == "type":
            return
        names, modules = self.modules[definition.crate, definition.file]
        module = definition.crate, definition.file[len("specs/") : -len(".antt")]
        for bound, part in parts_of(definition, self.constructors.__contains__):
            used, qualified = used_in(part, bound)
            # (an operator ◌+◌ is used by what stands between the circles)
            operators = {name for name in {*names, *self.exports[module]} if "◌" in name and name.strip("◌") in "".join(part)}
            definition.names |= self.looked_up(used | operators, qualified, names, modules, module)
        definition.names.discard(definition.key)


class Function:
    """A public function, with its clauses by their names ('' where a clause has none) and what these name."""

    def __init__(self, crate, module, owner, name, first):
        self.crate, self.module, self.owner, self.name, self.first = crate, module, owner, name, first
        self.last = first
        self.clauses = []
        self.names = set()

    @property
    def title(self):
        return "::".join([self.crate] + ([self.owner] if self.owner else [self.module] if self.module == "laws" else []) + [self.name])


def clauses_in(text):
    """The clauses of a function: keyword, name, what is said. Braces in them are balanced."""
    for match in re.finditer(r"^\s*(requires|ensures)(?: (\w+))? \{", text, flags=re.MULTILINE):
        depth, end = 1, match.end()
        while depth:
            depth += {"{": 1, "}": -1}.get(text[end], 0)
            end += 1
        yield match[1], match[2] or "", text[match.end() : end - 1]


def last_of_head(lines, number, indent):
    """The line with which what stands before a function's body ends; its clauses are indented more than the function."""
    has_clauses, depth = False, 0
    for end in range(number, len(lines)):
        line = lines[end]
        has_clauses = has_clauses or re.match(r"\s*(requires|ensures) ", line) is not None
        depth += line.count("{") - line.count("}")
        if line in (indent + "{", indent + "{}") or (line.endswith(";") and depth == 0):
            return end
        if not has_clauses and line.endswith(("{", "{}")):
            return end
    raise ValueError(f"line {number + 1}: a function without an end")


class Functions:
    """The public functions of the crates cpm_*: those that are reached from lib.rt, methods of public types, and those of traits."""

    def __init__(self, definitions):
        self.definitions = definitions
        self.all = []
        for path in sorted(glob.glob(f"{definitions.root}/crates/cpm_*/src/lib.rt")):
            self.read_crate(path)

    def read_crate(self, path):
        folder = os.path.dirname(path)
        crate = path.split("/")[-3]
        with open(path, encoding="utf-8") as file:
            library = file.read()
        open_modules = set(re.findall(r"^pub mod (\w+);", library, flags=re.MULTILINE))
        passed_on = set()
        for module, names, name in re.findall(r"^pub use (\w+)::(?:\{([^}]*)\}|(\w+));", library, flags=re.MULTILINE):
            passed_on |= {(module, word.strip()) for word in (names or name).split(",")}
        files = {os.path.basename(file)[: -len(".rt")]: file for file in sorted(glob.glob(f"{folder}/*.rt"))}
        public_types = set()
        texts = {}
        for module, file in files.items():
            with open(file, encoding="utf-8") as opened:
                texts[module] = opened.read()
            for name in re.findall(r"^pub (?:struct|enum|trait) (\w+)", texts[module], flags=re.MULTILINE):
                if module in open_modules or (module, name) in passed_on or module == "lib":
                    public_types.add(name)
        for module, text in texts.items():
            self.read_file(crate, module, text, lambda name, module=module: module in open_modules or (module, name) in passed_on, public_types)

    def read_file(self, crate, module, text, is_open, public_types):
        names, modules, _ = imports_of(re.sub(r"^ .*", "", text, flags=re.MULTILINE))
        lines = text.split("\n")
        owner, owner_names, owner_modules, is_trait = None, {}, {}, False
        number = 0
        while number < len(lines):
            line = lines[number]
            block = re.match(r"(?:impl(?:<.*?>)? (?:[\w<>':]+ for )?(\w+)|pub trait (\w+))", line)
            if block:
                owner, is_trait = block[1] or block[2], bool(block[2]) or " for " in line
                end = number
                while lines[end] != "}" and not lines[end].endswith("{}"):
                    end += 1
                owner_names, owner_modules, _ = imports_of("\n".join(lines[number:end]))
                owner_names, owner_modules = {**names, **owner_names}, {**modules, **owner_modules}
                ghosts = re.findall(r"^    ghost (?!use\b|invariant\b)\w+ = \{.*?\};$", "\n".join(lines[number:end]), flags=re.MULTILINE | re.DOTALL)
                # (also of a type that is not public, since one that is may have it as a field)
                if ghosts:
                    self.add(crate, module, owner, "(as a value)", number, "\n".join(ghosts), owner_names, owner_modules, whole=True)
            elif line == "}":
                owner, is_trait = None, False
            head = re.match(r"( *)(pub )?(?:const )?fn (\w+)", line)
            if head and (head[2] or is_trait):
                end = last_of_head(lines, number, head[1])
                is_public = owner in public_types if owner else is_open(head[3])
                if is_public:
                    place = (owner_names, owner_modules) if owner else (names, modules)
                    self.add(crate, module, owner, head[3], number, "\n".join(lines[number : end + 1]), *place)
            number += 1

    def add(self, crate, module, owner, name, number, text, names, modules, whole=False):
        function = Function(crate, module, owner, name, number + 1)
        function.last = number + len(text.split("\n"))
        clauses = [("ensures", "", text)] if whole else list(clauses_in(text))
        parameters = set() if whole else set(re.findall(r"\b(\w+): ", re.split(r"\n\s*(?:requires|ensures) ", text)[0]))
        for keyword, clause, said in clauses:
            tokens = tokens_of(said.split("\n"))
            bound = bound_in(tokens, self.definitions.constructors.__contains__) | parameters | {"result"}
            used, qualified = used_in(tokens, bound)
            cited = self.definitions.looked_up(used, qualified, names, modules, None)
            function.clauses.append((keyword, clause, cited))
            function.names |= cited
        self.all.append(function)

    def named(self, crate, owner, name):
        """The functions of that name, of a type or of a module."""
        return [f for f in self.all if f.crate == crate and f.name == name and owner in (f.owner, f.module)]


def behind(definitions, roots, is_closed=lambda key: False):
    """All that these definitions come to, in the order in which a reader meets them: those that are named first come first."""
    found, waiting = {}, list(roots)
    while waiting:
        key = waiting.pop(0)
        if key in found or is_closed(key):
            continue
        definition = definitions.all[key]
        found[key] = definition
        waiting += sorted(definition.names, key=lambda k: (k[0] != key[0], k[1] != key[1], k))
    return found
