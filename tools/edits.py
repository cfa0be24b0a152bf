"""Reads the edits of crates/*/planted, and finds the functions whose bodies an edit changes, for tools/planted.py."""
import os
import re

PARTS = ("src", "specs", "proofs")
# Comments, strings and characters of a source, in which no brace counts.
PASSED_OVER = re.compile(r'//[^\n]*|/\*.*?\*/|b?"(?:\\.|[^"\\])*"|b?\'(?:\\[^\']*|[^\'\\\n])\'', re.S)
TOKEN = re.compile(r"\b(?:fn|impl|trait|mod|macro_rules)\b|[{};\[\]]")
CLAUSE = re.compile(r"\b(?:requires|ensures|ghost)\b\*?[\s\w:]*$")
DECLARES = re.compile(r"\b(?:struct|enum|union)\s+(\w+)")


class Edit:
    """One edit of a crate: the texts that it makes, the functions whose bodies alone it changes, or why it is bad.

    `texts` has the new text of each file by its path in the crate. `functions` has for each changed body the path of
    its function below the crate, with its file and its lines; it is None if more than bodies is changed. `served` has
    the row of tools/server that refuses it, if a line `served:` names one. `soak` has the call of tools/soak/refused.py
    that does, if a line `soak:` names one.
    """

    def __init__(self, folder, path):
        self.name = os.path.basename(path)
        self.texts, self.functions, self.bad, self.served, self.soak = {}, {}, None, None, None
        self.pairs = []
        with open(path, encoding="utf-8") as lines:
            self.read(folder, lines)
        if not self.pairs and not self.bad:
            self.bad = "it has no 'old:' and 'new:' pair"

    def read(self, folder, lines):
        file = old = None
        for line in lines:
            word, _, rest = line.rstrip("\n").partition(":")
            if word == "file":
                file = rest.strip()
            elif word == "served":
                self.served = rest.strip()
            elif word == "soak":
                self.soak = rest.strip()
            elif word == "old":
                old = rest.removeprefix(" ")
            elif word == "new" and not self.bad:
                self.bad = self.replace(folder, file, old, rest.removeprefix(" "))

    def replace(self, folder, file, old, new):
        """Makes one change, and returns why it cannot be made."""
        if not file or not old or not file.startswith(tuple(f"{part}/" for part in PARTS)):
            return "a 'new:' line has no 'file:' below src/, specs/ or proofs/, or no 'old:' line before it"
        before = self.texts[file] if file in self.texts else text_of(os.path.join(folder, file))
        if before.count(old) != 1:
            return f"an 'old:' text is in {file} {before.count(old)} times, and not once"
        begin = before.index(old)
        self.texts[file] = before.replace(old, new)
        self.pairs.append((file, old, new))
        found = None
        if has_same_braces(old, new):
            found = function_at(before, file, begin, begin + len(old), homes_in(folder))
        if found is None:
            self.functions = None
        elif self.functions is not None:
            self.functions[found[0]] = (file, found[1], found[2])
        return None

    def over(self, folder, texts):
        """The texts with this edit made over them, or None if one of its places is not there once."""
        made = dict(texts)
        for file, old, new in self.pairs:
            before = made[file] if file in made else text_of(os.path.join(folder, file))
            if before.count(old) != 1:
                return None
            made[file] = before.replace(old, new)
        return made


def text_of(path):
    if not os.path.isfile(path):
        return ""
    with open(path, encoding="utf-8") as text:
        return text.read()


def has_same_braces(old, new):
    """Whether the new text leaves the nesting of braces as the old text does, so that no body ends elsewhere."""
    return nesting(old) == nesting(new)


def nesting(text):
    depth = least = 0
    for brace in re.findall(r"[{}]", blanked(text)):
        depth += 1 if brace == "{" else -1
        least = min(least, depth)
    return depth, least


def blanked(text):
    return PASSED_OVER.sub(lambda found: re.sub(r"[^\n]", " ", found[0]), text)


def module_of(file):
    path = re.sub(r"\.rt$", "", file.removeprefix("src/")).split("/")
    return [part for part in path if part not in ("lib", "main", "mod")]


def without_generics(text):
    """The text without what stands between angle brackets."""
    made, depth = "", 0
    for at, letter in enumerate(text):
        if letter == "<":
            depth += 1
        elif letter == ">" and text[at - 1] != "-":
            depth -= 1
        elif depth == 0:
            made += letter
    return made


def type_named(text):
    """The last name of a type's or a trait's path."""
    names = re.findall(r"\w+", re.sub(r"\bwhere\b.*", "", without_generics(text), flags=re.S))
    return names[-1] if names else ""


def owner_of(head):
    """The name of an impl or a trait in the path of its methods, as the prover prints it."""
    if head.startswith("trait"):
        return re.match(r"trait\s+(\w+)", head)[1]
    head = without_generics(re.sub(r"^impl\b", "", head))
    trait, _, of = head.partition(" for ")
    return type_named(of) + type_named(trait) if of else type_named(head)


def homes_in(folder):
    """The module of each type that a crate declares, by the type's name."""
    homes = {}
    for at, _, names in os.walk(os.path.join(folder, "src")):
        for name in names:
            if name.endswith(".rt"):
                path = os.path.join(at, name)
                for found in DECLARES.finditer(blanked(text_of(path))):
                    homes[found[1]] = module_of(os.path.relpath(path, folder))
    return homes


def in_angles(text):
    """What stands between the angle brackets at the front, if there are any, and the rest."""
    depth = 0
    for at, letter in enumerate(text):
        if letter == "<":
            depth += 1
        elif letter == ">" and text[at - 1] != "-":
            depth -= 1
        if depth == 0:
            return text[1:at], text[at + bool(at):]
    return "", text


def arguments_of(head):
    """The names among the arguments of an impl's type, if one of these is no parameter of the impl."""
    parameters, rest = in_angles(re.sub(r"^impl\b", "", head).strip())
    own = {part.split(":")[0].split()[-1] for part in without_generics(parameters).split(",") if part.strip()}
    _, _, arguments = re.sub(r"\bwhere\b.*", "", rest, flags=re.S).partition("<")
    parts = [part.strip() for part in arguments.strip().removesuffix(">").split(",") if part.strip()]
    return [] if set(parts) <= own else re.findall(r"\w+", arguments)


def owner_in(text, head, homes):
    """The name of an impl in the path of its methods, and the module of that path if it is not the impl's own.

    The methods of a type for all its arguments are in the module of the type. Those for some arguments are in that of
    the impl, with the names of the arguments. So are those of a trait, without these names.
    """
    name = owner_of(head)
    if " for " in without_generics(head):
        return name, None
    arguments = arguments_of(head)
    if arguments:
        return "+".join([name, *arguments]), None
    declared = {found[1] for found in DECLARES.finditer(text)}
    return name, None if name in declared else homes.get(name)


def function_at(text, file, begin, end, homes):
    """The path, the first and the last line of the function in whose body the place from begin to end stands."""
    if not file.startswith("src/"):
        return None
    for path, first, opens, closes in functions_of(text, module_of(file), homes):
        if opens < begin and end <= closes:
            return path, text.count("\n", 0, first) + 1, text.count("\n", 0, closes) + 1
    return None


def functions_of(text, module, homes):
    """Each function that has a body: its path below the crate, where it begins, and where its body begins and ends.

    `homes` has the module of each type of the crate.
    """
    plain = blanked(text)
    found, row, pending, last, depth, body, brackets = [], [], None, 0, 0, None, 0
    for token in TOKEN.finditer(plain):
        word, at = token[0], token.start()
        if word in "[]":
            brackets += 1 if word == "[" else -1
        elif word == "{":
            depth += 1
            if body or not pending or at < last:
                continue
            kind, begin = pending
            if kind == "fn" and CLAUSE.search(plain[last:at]):
                last = closing(plain, at) + 1
                continue
            if kind == "fn":
                names = [*owners(module, row), re.match(r"fn\s+(\w+)", plain[begin:])[1]]
                body = ("::".join(names), begin, at, depth)
            else:
                row.append((*named(kind, plain, plain[begin:at].strip(), homes), depth))
            pending = None
        elif word == "}":
            if body and body[3] == depth:
                found.append((*body[:3], at))
                body = None
            elif row and row[-1][2] == depth:
                row.pop()
            depth -= 1
        elif word == ";":
            if not body and brackets == 0 and at >= last:
                pending = None
        elif not body and at >= last and not (pending and pending[0] == "fn"):
            pending, last = (word, at), at
    return found


def named(kind, text, head, homes):
    """The name of what holds functions, and the module of their paths if it is not the own one."""
    if kind == "impl":
        return owner_in(text, head, homes)
    if kind == "trait":
        return owner_of(head), None
    found = re.match(r"\w+!?\s+(\w+)", head)
    return (found[1] if found else ""), None


def owners(module, row):
    """The names before that of a function in this row of holders."""
    if row and row[-1][1] is not None:
        return [*row[-1][1], row[-1][0]]
    return [*module, *[name for name, _, _ in row]]


def closing(text, at):
    """Where the brace that opens here is closed."""
    depth = 0
    for found in re.finditer(r"[{}]", text[at:]):
        depth += 1 if found[0] == "{" else -1
        if depth == 0:
            return at + found.start()
    return len(text)
