"""Types of the definitions' expressions, so that a rule can put one thing in the place of another of its type. A type is a name, a
tuple of a name and types (`List`, `Res`, `Option`, `×`, `→`), or a Var that is not known yet."""
import re

import antt

# what the definitions use of the libraries
LIBRARY = """
get_or : List A → ℕ → A → A
set : List A → ℕ → A → List A
replicate : ℕ → A → List A
length : List A → ℕ
take : ℕ → List A → List A
drop : ℕ → List A → List A
map : (A → B) → List A → List B
get_elem? : List A → ℕ → Option A
ltb : ℕ → ℕ → Bool
leb : ℕ → ℕ → Bool
eqb : ℕ → ℕ → Bool
not : Bool → Bool
cond : Bool → A → A → A
bit_and : ℕ → ℕ → ℕ
suc : ℕ → ℕ
zero : ℕ
true : Bool
false : Bool
none : Option A
some : A → Option A
tt : Unit
up : ℤ → ℕ
down : ℤ → ℕ
binary64 : Format
of_bits : Format → ℕ → Float
nan : Float
inf : Bool → Float
fin : Bool → ℕ → ℤ → Float
"""
OPERATORS = """
+ : ℕ → ℕ → ℕ
- : ℕ → ℕ → ℕ
* : ℕ → ℕ → ℕ
/ : ℕ → ℕ → ℕ
% : ℕ → ℕ → ℕ
&& : Bool → Bool → Bool
|| : Bool → Bool → Bool
++ : List A → List A → List A
∷ : A → List A → List A
>>= : Res A → (A → Res B) → Res B
"""


class Var:
    def __init__(self):
        self.is_ = None


def resolved(t):
    while isinstance(t, Var) and t.is_ is not None:
        t = t.is_
    return tuple(resolved(x) for x in t) if isinstance(t, tuple) else t


def known(t):
    return not isinstance(t, Var) and (not isinstance(t, tuple) or all(known(x) for x in t))


def unify(a, b):
    a, b = resolved(a), resolved(b)
    if isinstance(a, Var):
        if a is not b:
            a.is_ = b
    elif isinstance(b, Var):
        b.is_ = a
    elif isinstance(a, tuple) and isinstance(b, tuple) and len(a) == len(b) and a[0] == b[0]:
        for x, y in zip(a[1:], b[1:]):
            unify(x, y)
    elif a != b:
        raise TypeError(f"{a} is not {b}")


def parse(text):
    """A type as it is written; implicit arguments are left out"""
    words = re.findall(r"\{[^}]*\} →|\{0\}|[()→×]|[^\s(){}→×]+", text)
    words = [w for w in words if not w.startswith("{")]
    at = 0

    def arrow():
        nonlocal at
        left = product()
        if at < len(words) and words[at] == "→":
            at += 1
            return ("→", left, arrow())
        return left

    def product():
        nonlocal at
        parts = [applied()]
        while at < len(words) and words[at] == "×":
            at += 1
            parts.append(applied())
        return ("×", *parts) if len(parts) > 1 else parts[0]

    def applied():
        nonlocal at
        parts = []
        while at < len(words) and words[at] not in ("→", "×", ")"):
            if words[at] == "(":
                at += 1
                parts.append(arrow())
                at += 1
            else:
                parts.append(words[at])
                at += 1
        return tuple(parts) if len(parts) > 1 else parts[0]

    return arrow()


def instance(t, names):
    """The type with new variables for its type variables A and B"""
    if t in ("A", "B"):
        return names.setdefault(t, Var())
    return tuple(instance(x, names) for x in t) if isinstance(t, tuple) else t


def table(text):
    return {line.split(" : ")[0].strip(): parse(line.split(" : ", 1)[1]) for line in text.strip().split("\n")}


class File:
    """A file of specs: its definitions, constructors and records, and what it imports"""

    def __init__(self, name, text, files):
        self.name, self.text = name, text
        self.definitions = antt.definitions(name, text)
        self.own = {d.name: parse(d.type) for d in self.definitions}
        self.records, self.constructors = {}, {}
        self.parameter = {}
        for match in re.finditer(r"^( *)pub (data|record) (\w+)[^\n]* where\n((?:\1  [^\n]*\n)*)", text, re.M):
            _, kind, type_, body = match.groups()
            lines = re.findall(r"^ *(?:pub )?(\S+) : (.*)$", body, re.M)
            if "→ Type 0" in match.group(0) or any("Memᴰ" in line for _, line in lines):
                continue
            if kind == "record":
                self.records[type_] = {name: parse(t) for name, t in lines}
            else:
                self.constructors.update({name: parse(t) for name, t in lines})
        parameter = re.search(r"^module _ .*\((\w+) : (.*)\) where", text, re.M)
        if parameter:
            self.parameter = {parameter.group(1): parse(parameter.group(2))}
        # names in scope: the libraries', then what the `use` lines bring of other files
        library = table(LIBRARY)
        self.imported, self.names, self.all_records = {}, {}, dict(self.records)
        for module, names in re.findall(r"^use (\S+)\.\{(.*)\}$", text, re.M):
            other = files.get(module.split(".")[-1]) if module.startswith("Rattle.model.specs.") else None
            if other:
                self.all_records.update(other.all_records)
            for entry in names.split(", "):
                there, _, here = entry.partition(" as ")
                here = here or there
                if other:
                    type_ = other.constructors.get(there) or other.exported(there)
                    self.imported[here] = type_
                else:
                    type_ = library.get(there)
                if type_:
                    self.names[here] = type_
        self.names.update({"tt": "Unit"})
        self.names.update(self.constructors)
        self.names.update(self.own)
        for definition in self.definitions:
            self.type_definition(definition)

    def exported(self, name):
        """A definition's type outside its file, where a module's parameter is an argument"""
        type_ = self.own.get(name)
        for parameter in self.parameter.values():
            type_ = ("→", parameter, type_) if type_ else None
        return type_

    def type_definition(self, definition):
        for clause in definition.clauses:
            scope = dict(self.parameter)
            left = antt.Parser(clause.left, 0, len(clause.left)).whole()
            type_ = self.own[definition.name]
            if left.kind == "infix":
                patterns = left.parts
            else:
                patterns = left.parts[1:] if left.kind == "call" else []
            for pattern in patterns:
                self.pattern(pattern, type_[1], scope)
                type_ = type_[2]
            self.check(clause.right, type_, scope)
            for node in clause.right.all():
                node.type = resolved(node.type)
                node.scope = {name: resolved(t) for name, t in (node.scope or {}).items()}

    def pattern(self, node, type_, scope):
        if node.kind == "group":
            return self.pattern(node.parts[0], type_, scope)
        if node.kind == "infix":
            item = Var()
            unify(("List", item), type_)
            self.pattern(node.parts[0], item, scope)
            return self.pattern(node.parts[1], type_, scope)
        if node.kind in ("nil", "number"):
            return None
        head, arguments = (node.parts[0], node.parts[1:]) if node.kind == "call" else (node, [])
        constructor = self.names.get(head.name)
        if head.name not in self.own and constructor:
            t = instance(constructor, {})
            for argument in arguments:
                self.pattern(argument, t[1], scope)
                t = t[2]
            unify(t, type_)
        elif head.name != "_":
            scope[head.name] = type_
        return None

    def check(self, node, type_, scope):
        found = self.infer(node, scope)
        unify(found, type_)
        return type_

    def infer(self, node, scope):
        node.scope = scope
        node.type = self.type_of(node, scope)
        return node.type

    def type_of(self, node, scope):
        kind, parts = node.kind, node.parts
        if kind == "number":
            return "ℕ"
        if kind == "nil":
            return ("List", Var())
        if kind == "name":
            if node.name in scope:
                return scope[node.name]
            return instance(self.names[node.name], {}) if node.name in self.names else Var()
        if kind == "group":
            return self.infer(parts[0], scope)
        if kind == "tuple":
            return ("×", *(self.infer(part, scope) for part in parts))
        if kind == "infix":
            _, first, (_, second, result) = instance(table(OPERATORS)[node.name], {})
            self.check(parts[0], first, scope)
            self.check(parts[1], second, scope)
            return result
        if kind == "call":
            t = self.infer(parts[0], scope)
            for argument in parts[1:]:
                found, result = self.infer(argument, scope), Var()
                unify(t, ("→", found, result))
                t = resolved(result)
            return t
        if kind == "proj":
            return self.field_of(resolved(self.infer(parts[0], scope)), node.name)
        if kind == "let":
            value = self.infer(parts[0], scope)
            return self.infer(parts[1], scope | {node.name: value})
        if kind == "lambda":
            name, _, annotated = node.name.strip("()").strip().partition(" : ")
            bound = parse(annotated) if annotated else Var()
            return ("→", bound, self.infer(parts[0], scope if name == "_" else scope | {name: bound}))
        if kind == "steps":
            for step in parts:
                t = self.infer(step, scope)
                if step.name and step.name != "_":
                    scope = scope | {step.name: t[1] if isinstance(resolved(t), tuple) else Var()}
            return t
        if kind == "choice":
            looked, result = self.infer(parts[0], scope), Var()
            for branch in parts[1:]:
                inner = dict(scope)
                self.pattern(antt.Parser(branch.name, 0, len(branch.name)).whole(), looked, inner)
                self.check(branch, result, inner)
            return result
        if kind == "record":
            names = [part.name for part in parts]
            record = next((r for r, fields in self.all_records.items() if list(fields) == names), None)
            for part in parts:
                self.infer(part, scope)
                if record:
                    unify(part.type, self.all_records[record][part.name])
            return record or Var()
        return self.infer(parts[0], scope)  # step, branch, field

    def field_of(self, t, name):
        if name.isdigit():
            return t[1 + int(name)] if isinstance(t, tuple) and t[0] == "×" else Var()
        return self.all_records.get(t, {}).get(name) or Var() if isinstance(t, str) else Var()


def files(folder, names):
    read = {}
    for name in names:
        read[name] = File(name, (folder / f"{name}.antt").read_text(), read)
    return read
