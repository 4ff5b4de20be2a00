"""The rules that make a wrong definition: each changes one place. A rule yields (start, end, new text)."""
import re

from kinds import known

COMPARISONS = ["ltb", "leb", "eqb"]
OTHER_WAY = {"true": "false", "false": "true", "&&": "||", "||": "&&", "+": "-", "-": "+", "/": "%", "%": "/"}
EITHER_WAY = {"+", "*", "&&", "||", "eqb", "bit_and", "same", "same_ptr", "sum_fits"}  # nothing else with the operands exchanged


class Place:
    """A definition's text, and what its rules need of it"""

    def __init__(self, file, definition):
        self.file, self.definition = file, definition
        order = [d.name for d in file.definitions]
        later = set(order[order.index(definition.name):])
        self.names = {n: t for n, t in file.names.items() if n not in later and (n in file.own or n in file.imported or n in file.constructors)}

    def text(self, node):
        return self.file.text[node.start:node.end]

    def atom(self, node):
        """as an argument or operand"""
        alone = node.kind in ("name", "number", "nil", "proj", "group", "tuple", "record")
        return self.text(node) if alone else f"({self.text(node)})"

    def free(self, node):
        """the variables of its surroundings that it names"""
        return {n.name for n in node.all() if n.kind == "name" and n.name in node.scope}


def same(a, b):
    return known(a.type) and a.type == b.type


def comparison(place, node):
    """one comparison for another"""
    if node.kind == "name" and node.name in COMPARISONS:
        for other in COMPARISONS:
            if other != node.name:
                yield node.start, node.end, other


def constant(place, node):
    """a constant by one, true for false"""
    if node.kind == "number":
        value = int(node.name.replace("_", ""), 0)
        for other in (value + 1, value - 1):
            if other >= 0:
                yield node.start, node.end, str(other)
    elif node.kind == "name" and node.name == "zero":
        yield node.start, node.end, "1"
    elif node.kind == "name" and node.name in OTHER_WAY:
        yield node.start, node.end, OTHER_WAY[node.name]


def operator(place, node):
    """`&&` for `||`, `+` for `-`, `/` for `%`, and the other way round"""
    if node.kind == "infix" and node.name in OTHER_WAY:
        left, right = node.parts
        between = place.file.text[left.end:right.start]
        yield left.end, right.start, between.replace(node.name, OTHER_WAY[node.name])


def branch(place, node):
    """a branch for the other, and the two exchanged"""
    if node.kind == "choice":
        values = [(part.parts[0], set(part.scope) - set(node.scope)) for part in node.parts[1:]]
    elif node.kind == "call" and node.parts[0].name == "cond" and len(node.parts) == 4:
        values = [(part, set()) for part in node.parts[2:]]
    else:
        return
    for k, (one, bound) in enumerate(values):
        for other, unbound in values[:k] + values[k + 1:]:
            if not place.free(other) & unbound:
                yield one.start, one.end, place.atom(other)
    for (one, bound), (other, unbound) in zip(values, values[1:]):
        if not place.free(other) & unbound and not place.free(one) & bound:
            between = place.file.text[one.end:other.start]
            yield one.start, other.end, place.atom(other) + between + place.atom(one)


def ask_left_out(place, node):
    """an `ask` left out"""
    if node.kind == "call" and node.parts[0].name == "ask":
        yield node.start, node.end, "ok (tt {0})"


def steps_exchanged(place, node):
    """two neighbouring questions or steps exchanged"""
    text = place.file.text
    if node.kind == "steps":
        for one, other in zip(node.parts, node.parts[1:-1]):
            if one.name == "_" or one.name not in place.free(other):
                yield one.start, other.end, text[other.start:other.end] + text[one.end:other.start] + text[one.start:one.end]
    if node.kind == "infix" and node.name == ">>=" and node.parts[1].kind == "lambda":
        one, rest = node.parts[0], node.parts[1].parts[0]
        if rest.kind == "infix" and rest.name == ">>=" and rest.parts[1].kind == "lambda":
            other, end = rest.parts[0], rest.parts[1].parts[0]
            if node.parts[1].name not in place.free(other):
                yield one.start, end.start, text[other.start:end.start] + text[one.start:rest.start]
        elif rest.kind == "call" and one.kind == "call" and rest.parts[0].name == "ask":
            yield one.start, rest.end, text[rest.start:rest.end] + text[one.end:rest.start] + text[one.start:one.end]


def another(place, node):
    """another field, variable or definition of the same type"""
    if node.kind == "proj":
        record = node.parts[0].type
        if node.name.isdigit():
            fields = {str(k): t for k, t in enumerate(record[1:])}
        else:
            fields = place.file.all_records[record]
        for other, type_ in fields.items():
            if other != node.name and type_ == fields[node.name]:
                yield node.end - len(node.name), node.end, other
    elif node.kind == "name":
        others = node.scope if node.name in node.scope else place.names if node.name in place.names else {}
        for other, type_ in others.items():
            if other != node.name and known(type_) and type_ == others[node.name] and "◌" not in other:
                yield node.start, node.end, other


def first_for_all(place, node):
    """the first element for all of a list; in a recursion, what an empty list gives for the rest"""
    if node.kind == "call" and node.parts[0].name == place.definition.name:
        for clause in place.definition.clauses:
            if "[]" in clause.left:
                empty = place.text(clause.right)
                if not place.free(clause.right):
                    yield node.start, node.end, empty
                elif node.type[0] == "→" and empty == "ok " + clause.left.split()[-1]:
                    yield node.start, node.end, "ok"
    elif node.kind == "call":
        for argument in node.parts[1:]:
            is_list = isinstance(argument.type, tuple) and argument.type[0] == "List"
            at_most_one = argument.kind == "nil" or re.fullmatch(r"\([^∷]* ∷ \[\]\)", place.text(argument))
            first_alone = node.parts[0].name == "get_or" and node.parts[2].name == "0"
            if is_list and not at_most_one and not first_alone:
                yield argument.start, argument.end, f"(take 1 {place.atom(argument)})"


def left_out(place, node):
    """a step left out: an operand or argument for the whole, a field as it was"""
    if node.kind == "call":
        for argument in node.parts[1:]:
            if same(argument, node):
                yield node.start, node.end, place.atom(argument)
            elif known(node.type) and node.type == ("Res", argument.type):
                yield node.start, node.end, f"ok {place.atom(argument)}"
    elif node.kind == "infix":
        for part in node.parts:
            if same(part, node):
                yield node.start, node.end, place.atom(part)
    elif node.kind == "record":
        for variable in [name for name, type_ in node.scope.items() if type_ == node.type]:
            for field in node.parts:
                yield field.parts[0].start, field.end, f"{variable}.{field.name}"


def neighbour(place, node):
    """an operand, argument, element or field for its neighbour, and the two exchanged"""
    text, pairs = place.file.text, []
    if node.kind == "call":
        arguments = node.parts[1:]
        pairs = list(zip(arguments, arguments[1:]))
    elif node.kind == "infix" and node.name == "∷":
        rest = node.parts[1]
        if rest.kind == "infix" and rest.name == "∷":
            pairs = [(node.parts[0], rest.parts[0])]
    elif node.kind == "infix" and node.name != ">>=":
        pairs = [tuple(node.parts)]
    elif node.kind == "tuple":
        pairs = list(zip(node.parts, node.parts[1:]))
    elif node.kind == "record":
        values = [part.parts[0] for part in node.parts]
        pairs = [(a, b) for k, a in enumerate(values) for b in values[k + 1:k + 2]]
    for one, other in pairs:
        if same(one, other) and text[one.start:one.end] != text[other.start:other.end]:
            yield one.start, one.end, place.atom(other)
            yield other.start, other.end, place.atom(one)
            if (node.parts[0].name if node.kind == "call" else node.name) not in EITHER_WAY:
                yield one.start, other.end, place.atom(other) + text[one.end:other.start] + place.atom(one)


def clause_for_another(place, definition):
    """what a clause gives for what its neighbour gives"""
    for one, other in list(zip(definition.clauses, definition.clauses[1:])) + list(zip(definition.clauses[1:], definition.clauses)):
        here, there = one.right, other.right
        if all(here.scope.get(name) == there.scope[name] for name in place.free(there)):
            yield here.start, here.end, place.text(there)


RULES = [comparison, constant, operator, branch, ask_left_out, steps_exchanged, another, first_for_all, left_out, neighbour]


def mutants(file, definition):
    """All that the rules make of a definition: (rule, start, end, new text), each text once"""
    place, seen = Place(file, definition), {bare(file.text)}
    changes = [(clause_for_another, *change) for change in clause_for_another(place, definition)]
    for clause in definition.clauses:
        for node in clause.right.all():
            changes += [(rule, *change) for rule in RULES for change in rule(place, node)]
    idle = [span for clause in definition.clauses for node in clause.right.all() for span in without_effect(node)]
    for rule, start, end, new in changes:
        whole = bare(file.text[:start] + new + file.text[end:])
        if whole not in seen and not any(a <= start and end <= b for a, b in idle):
            seen.add(whole)
            yield rule.__name__, start, end, new


def without_effect(node):
    """What `get_or` gives behind a list's end, at a constant place: an image, a cell and a value are as long as that"""
    if node.kind == "call" and node.parts[0].name == "get_or" and node.parts[2].kind == "number":
        yield node.parts[3].start, node.parts[3].end


def bare(text):
    """without spaces and parentheses: no rule changes these alone"""
    return re.sub(r"[()\s]", "", text)
