"""The definitions of a file of crates/model/specs as trees: enough of antt to find each place that a rule changes."""
import re
from dataclasses import dataclass, field

TOKEN = re.compile(r"""
    (?P<space>\s+|--[^\n]*)
  | (?P<number>0x[0-9A-Fa-f_]+|[0-9][0-9_]*(?![\w']))
  | (?P<proj>(?<=[\w')])\.(?:[A-Za-z][\w'-]*|[0-9]+))
  | (?P<op>>>=|\+\+|&&|\|\||[+*/%∷]|-(?=\s))
  | (?P<mark>[(){}\[\];,=λ↦|←→:×.])
  | (?P<name>[^\s(){}\[\];,.]+)
""", re.X)

# operators, loosest first; those of RIGHT take what stands right of them first
LEVELS = [[">>="], ["||"], ["&&"], ["∷", "++"], ["+", "-"], ["*", "/", "%"]]
LEVEL = {op: level for level, ops in enumerate(LEVELS) for op in ops}
RIGHT = {"∷", "++", "||", "&&"}


@dataclass
class Token:
    kind: str
    text: str
    start: int
    end: int
    column: int


def tokens(text, start, end):
    found = []
    while start < end:
        match = TOKEN.match(text, start, end)
        if not match:
            raise SyntaxError(f"no token at {text[start:start + 30]!r}")
        if match.lastgroup != "space":
            column = start - (text.rfind("\n", 0, start) + 1)
            found.append(Token(match.lastgroup, match.group(), start, match.end(), column))
        start = match.end()
    return found


@dataclass
class Node:
    """An expression: its kind, its place in the file's text, its parts; by typing.py its type, and the
    variables that it can name"""
    kind: str
    start: int
    end: int
    parts: list = field(default_factory=list)
    name: str = ""
    type: object = None
    scope: dict = None

    def all(self):
        yield self
        for part in self.parts:
            yield from part.all()


class Parser:
    """Kinds of nodes: number, name, nil, call (head and arguments), proj (name is the field), infix (name is the operator),
    let (value, body), lambda (body), steps (of a do block; a step's name is what it binds), choice (elim: what is looked at, then
    the branches; a branch's name is its pattern), record (its fields, named), tuple, group (in parentheses)"""

    def __init__(self, text, start, end):
        self.text, self.list, self.at = text, tokens(text, start, end), 0

    def peek(self):
        return self.list[self.at].text if self.at < len(self.list) else ""

    def take(self, text=None):
        token = self.list[self.at]
        if text and token.text != text:
            raise SyntaxError(f"{text!r} wanted, not {token.text!r} at {self.text[token.start:token.start + 40]!r}")
        self.at += 1
        return token

    def whole(self):
        node = self.expression()
        if self.at < len(self.list):
            raise SyntaxError(f"left: {self.text[self.list[self.at].start:][:40]!r}")
        return node

    def expression(self, level=0):
        left = self.operand()
        while self.peek() in LEVEL and LEVEL[self.peek()] >= level:
            op = self.take().text
            right = self.expression(LEVEL[op] if op in RIGHT else LEVEL[op] + 1)
            left = Node("infix", left.start, right.end, [left, right], op)
        return left

    def operand(self):
        first = self.peek()
        if first == "let":
            start = self.take().start
            name = self.take().text
            self.take("=")
            value = self.expression()
            self.take("in")
            body = self.expression()
            return Node("let", start, body.end, [value, body], name)
        if first == "λ":
            start = self.take().start
            bound = []
            while self.peek() != ".":
                bound.append(self.take().text)
            self.take(".")
            body = self.expression()
            return Node("lambda", start, body.end, [body], " ".join(bound))
        if first == "do":
            return self.steps()
        node = self.atom()
        arguments = []
        while self.at < len(self.list) and self.list[self.at].kind in ("number", "name", "mark") and self.starts_atom():
            arguments.append(self.atom())
        if arguments:
            node = Node("call", node.start, arguments[-1].end, [node] + arguments)
        if node.kind == "call" and node.parts[0].name == "elim":
            node = Node("choice", node.start, node.end, [node.parts[1]] + node.parts[2].parts)
        return node

    def starts_atom(self):
        token = self.list[self.at]
        return token.text in "([" if token.kind == "mark" else token.text not in ("in", "let", "do", "λ")

    def steps(self):
        start, parts = self.take("do").start, []
        column = self.list[self.at].column
        while self.at < len(self.list) and self.list[self.at].column == column:
            first = self.list[self.at]
            if self.list[self.at + 1].text == "←":
                name = self.take().text
                self.take("←")
            else:
                name = ""
            # a step ends where the next one begins
            stop = next((k for k in range(self.at, len(self.list)) if self.list[k].column == column and k > self.at), len(self.list))
            inner = Parser(self.text, self.list[self.at].start, self.list[stop - 1].end).whole()
            self.at = stop
            parts.append(Node("step", first.start, inner.end, [inner], name))
        return Node("steps", start, parts[-1].end, parts)

    def atom(self):
        node = self.unit()
        while self.at < len(self.list) and self.list[self.at].kind == "proj":
            token = self.take()
            node = Node("proj", node.start, token.end, [node], token.text[1:])
        return node

    def unit(self):
        token = self.take()
        if token.kind == "number":
            return Node("number", token.start, token.end, name=token.text)
        if token.text == "record" and self.peek() == "{":
            self.take("{")
            parts = []
            while self.peek() != "}":
                name = self.take()
                self.take("=")
                value = self.expression()
                parts.append(Node("field", name.start, value.end, [value], name.text))
                if self.peek() == ";":
                    self.take()
            return Node("record", token.start, self.take("}").end, parts)
        if token.text == "(":
            parts = [self.expression()]
            while self.peek() == ",":
                self.take()
                parts.append(self.expression())
            return Node("tuple" if len(parts) > 1 else "group", token.start, self.take(")").end, parts)
        if token.text == "[":
            if self.peek() == "]":
                return Node("nil", token.start, self.take().end)
            parts = []
            while self.peek() != "]":
                if self.peek() == "|":
                    self.take()
                first, pattern = self.list[self.at], []
                while self.peek() != "↦":
                    pattern.append(self.take().text)
                self.take("↦")
                value = self.expression()
                parts.append(Node("branch", first.start, value.end, [value], " ".join(pattern)))
            return Node("branches", token.start, self.take("]").end, parts)
        if token.kind == "name":
            return Node("name", token.start, token.end, name=token.text)
        raise SyntaxError(f"no expression begins with {token.text!r} at {self.text[token.start:token.start + 40]!r}")


@dataclass
class Clause:
    left: str
    right: Node


@dataclass
class Definition:
    file: str
    name: str
    type: str
    clauses: list


def definitions(file, text):
    """The definitions of a file, each with its clauses; records, data and propositions are passed over"""
    found, lines, offset = [], text.split("\n"), 0
    starts = []
    for line in lines:
        starts.append(offset)
        offset += len(line) + 1
    k = 0
    while k < len(lines):
        match = re.match(r"^( *)(?:unfoldable|abbrev) pub (\S+) : (.*)$", lines[k])
        k += 1
        if not match:
            continue
        margin, name, type_ = match.groups()
        if type_.endswith("Type 0"):
            continue
        clauses = []
        while k < len(lines) and lines[k].startswith(margin) and lines[k].strip() and not lines[k].strip().startswith("--"):
            first = k
            k += 1
            while k < len(lines) and lines[k].startswith((margin + "  ", margin + "}")):
                k += 1
            start, end = starts[first], starts[k - 1] + len(lines[k - 1])
            equals = start + re.search(r" =(?=\s)", text[start:end]).end()
            clauses.append(Clause(text[start:equals - 1].strip(), Parser(text, equals, end).whole()))
        found.append(Definition(file, name, type_, clauses))
    return found
