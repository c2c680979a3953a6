"""Reads a script that is right into its tree, for row.py. It refuses what it can't read, but tells no fault as `check` does."""
import re

RESERVED = set("""arguments await break case catch class const continue debugger default delete do else enum eval export
extends false finally for function if implements import in instanceof interface let new null package private protected public
return static super switch this throw true try typeof undefined var void while with yield""".split())
TOKEN = re.compile(r"""(?P<gap>(?:[ \t\v\f\r\n]|//[^\n]*|/\*.*?\*/)+)|(?P<name>[A-Za-z_$][A-Za-z0-9_$]*)|(?P<number>[0-9]+)
|(?P<text>"(?:[^"\\\n]|\\.)*"|'(?:[^'\\\n]|\\.)*')
|(?P<mark>===|!==|=>|<=|>=|&&|\|\||\+\+|--|\+=|-=|\*=|[{}()\[\].;,<>+\-*/%!?:=])""", re.X | re.S)
ESCAPES = {"n": 10, "t": 9, "r": 13, "b": 8, "f": 12, "v": 11, "0": 0}
LEVELS = [["||"], ["&&"], ["===", "!=="], ["<", ">", "<=", ">=", "in", "instanceof"], ["+", "-"], ["*", "/", "%"]]


class Node:
    """A node: its kind, its parts in source order, and what its kind has beside them. `binds` are the names of its scope."""

    def __init__(self, kind, kids=(), **more):
        self.kind, self.kids, self.binds = kind, list(kids), []
        self.__dict__.update(more)


def units(text):
    """The code units of a text as a script writes it."""
    out, i = [], 1
    while i < len(text) - 1:
        c, i = text[i], i + 1
        if c != "\\":
            point = ord(c)
        else:
            c, i = text[i], i + 1
            if c == "x":
                point, i = int(text[i:i + 2], 16), i + 2
            elif c == "u" and text[i] == "{":
                end = text.index("}", i)
                point, i = int(text[i + 1:end], 16), end + 1
            elif c == "u":
                point, i = int(text[i:i + 4], 16), i + 4
            else:
                point = ESCAPES.get(c, ord(c))
        out += [point] if point < 0x10000 else [0xD7C0 + (point >> 10), 0xDC00 + (point & 0x3FF)]
    return out


def tokens(script):
    out, at, line = [], 0, False
    while at < len(script):
        found = TOKEN.match(script, at)
        if not found:
            raise SystemExit("no token at %d: %r" % (at, script[at:at + 20]))
        at = found.end()
        if found.lastgroup == "gap":
            line = line or "\n" in found.group()
        else:
            out.append((found.lastgroup, found.group(), line))
            line = False
    return out + [("end", "", True)]


class Reader:
    def __init__(self, script):
        self.tokens, self.at = tokens(script), 0

    def word(self, ahead=0):
        kind, text, _ = self.tokens[min(self.at + ahead, len(self.tokens) - 1)]
        return None if kind == "text" else text

    def after_line(self):
        return self.tokens[self.at][2]

    def next(self):
        self.at += 1
        return self.tokens[self.at - 1]

    def take(self, *words):
        if self.tokens[self.at][0] != "text" and self.word() in words:
            return self.next()[1]
        return None

    def need(self, word):
        if not self.take(word):
            raise SystemExit("wanted %r, found %r" % (word, self.tokens[self.at:self.at + 5]))

    def name(self):
        kind, text, _ = self.next()
        if kind != "name" or text in RESERVED:
            raise SystemExit("wanted a name, found %r" % text)
        return text

    def many(self, end, one):
        """Members with commas between, up to the closing mark."""
        out = []
        while not self.take(end):
            out.append(one())
            if self.word() != end:
                self.need(",")
        return out

    # ---- statements

    def script(self):
        kids = []
        while self.word() != "":
            kids.append(self.statement())
        return scoped(Node("Script", kids), kids)

    def block(self):
        self.need("{")
        kids = []
        while not self.take("}"):
            kids.append(self.statement())
        return kids

    def block_node(self):
        kids = self.block()
        return scoped(Node("Block", kids), kids)

    def declarations(self, kind):
        kids = []
        while not kids or self.take(","):
            name = self.name()
            kids.append(Node("Decl", [self.assign()] if self.take("=") else [], name=name))
        return Node(kind, kids)

    def optional(self, end):
        node = None if self.word() == end else self.expression()
        self.need(end)
        return node

    def head(self):
        self.need("(")
        node = self.expression()
        self.need(")")
        return node

    def statement(self):
        word = self.word()
        if word == "{":
            return self.block_node()
        if word == "let" or word == "const":
            self.next()
            node = self.declarations("Let" if word == "let" else "Const")
        elif word == "function":
            self.next()
            name = self.name()
            return self.function("FunctionDecl", name=name)
        elif word == "if":
            self.next()
            kids = [self.head(), self.statement()]
            return Node("If", kids + ([self.statement()] if self.take("else") else []))
        elif word == "while":
            self.next()
            return Node("While", [self.head(), self.statement()])
        elif word == "do":
            self.next()
            body = self.statement()
            self.need("while")
            node = Node("DoWhile", [body, self.head()])
        elif word == "for":
            return self.for_statement()
        elif word == "try":
            return self.try_statement()
        elif self.take(";"):
            return Node("Empty")
        elif word in ("return", "throw"):
            self.next()
            value = [] if self.word() == ";" else [self.expression()]
            node = Node("Return" if word == "return" else "Throw", value)
        elif word in ("break", "continue"):
            self.next()
            node = Node("Break" if word == "break" else "Continue")
        else:
            node = Node("ExprStmt", [self.expression()])
        self.need(";")
        return node

    def for_statement(self):
        self.next()
        self.need("(")
        if self.take("let"):
            first = self.declarations("Let")
            self.need(";")
        else:
            first = self.optional(";")
        parts = [first, self.optional(";"), self.optional(")"), self.statement()]
        node = Node("For", [p for p in parts if p], parts=parts)
        return scoped(node, [first] if first and first.kind == "Let" else [])

    def try_statement(self):
        self.next()
        parts = [self.block_node(), None, None, None]
        if self.take("catch"):
            if self.take("("):
                parts[1] = Node("Param", name=self.name())
                self.need(")")
            parts[2] = self.block_node()
        if self.take("finally"):
            parts[3] = self.block_node()
        node = Node("Try", [p for p in parts if p], parts=parts)
        node.binds = [(parts[1].name, False)] if parts[1] else []
        return node

    # ---- functions

    def params(self):
        self.need("(")
        return self.many(")", lambda: Node("Param", name=self.name()))

    def function(self, kind, key=(), params=None, **more):
        params = self.params() if params is None else params
        body = self.block()
        return bound(Node(kind, list(key) + params + body, params=params, body=body, **more))

    def arrow(self, params):
        self.need("=>")
        block = self.word() == "{"
        body = self.block() if block else [self.assign()]
        node = Node("Arrow", params + body, params=params, body=body, block=block)
        return bound(node)

    def is_arrow(self):
        """Whether an arrow function begins here."""
        if self.word(1) == "=>":
            return self.tokens[self.at][0] == "name" and self.word() not in RESERVED
        depth, ahead = 0, 0
        while self.word() == "(":
            word = self.word(ahead)
            depth += (word in ("(", "[", "{")) - (word in (")", "]", "}"))
            ahead += 1
            if depth == 0:
                return self.word(ahead) == "=>"
        return False

    # ---- expressions

    def expression(self):
        kids = [self.assign()]
        while self.take(","):
            kids.append(self.assign())
        return kids[0] if len(kids) == 1 else Node("Seq", kids)

    def assign(self):
        if self.is_arrow():
            return self.arrow(self.params() if self.word() == "(" else [Node("Param", name=self.name())])
        left = self.level(0)
        if self.take("?"):
            main = self.assign()
            self.need(":")
            return Node("Cond", [left, main, self.assign()])
        sign = self.take("=", "+=", "-=", "*=")
        if sign == "=":
            return Node("Assign", [left, self.assign()])
        if sign:
            return Node("Compound", [left, self.assign()], sign=sign[0])
        return left

    def level(self, n):
        if n == len(LEVELS):
            return self.unary()
        left = self.level(n + 1)
        while sign := self.take(*LEVELS[n]):
            kind = {"||": "Or", "&&": "And"}.get(sign, "Binary")
            left = Node(kind, [left, self.level(n + 1)], sign=sign)
        return left

    def unary(self):
        if sign := self.take("!", "-", "typeof", "delete"):
            return Node("Unary", [self.unary()], sign=sign)
        if sign := self.take("++", "--"):
            return Node("Update", [self.unary()], plus=sign == "++", prefix=True)
        node = self.left()
        if not self.after_line() and (sign := self.take("++", "--")):
            return Node("Update", [node], plus=sign == "++", prefix=False)
        return node

    def new(self):
        callee = self.new() if self.take("new") else self.members(self.primary(), False)
        return Node("New", [callee] + (self.arguments() if self.word() == "(" else []))

    def arguments(self):
        self.need("(")
        return self.many(")", self.assign)

    def left(self):
        if self.take("new"):
            return self.members(self.new(), True)
        return self.members(self.primary(), True)

    def members(self, node, calls):
        while True:
            if self.take("."):
                node = Node("Member", [node], name=self.next()[1])
            elif self.take("["):
                node = Node("Index", [node, self.expression()])
                self.need("]")
            elif calls and self.word() == "(":
                node = Node("Call", [node] + self.arguments())
            else:
                return node

    def primary(self):
        kind, text, _ = self.next()
        if kind == "text":
            return Node("Text", units=units(text))
        if kind == "number":
            return Node("Number", whole=int(text))
        if text == "[":
            return Node("Array", self.many("]", self.assign))
        if text == "{":
            return Node("Object", self.many("}", self.property))
        if text == "(":
            inside = self.expression()
            self.need(")")
            return Node("Group", [inside])
        if text == "function":
            name = None if self.word() == "(" else self.name()
            return self.function("Function", name=name)
        if text == "this":
            return Node("This")
        if text in ("true", "false", "null", "undefined"):
            return Node("Literal", word=text)
        if kind == "name" and text not in RESERVED:
            return Node("Name", name=text)
        raise SystemExit("no expression at %r" % text)

    def key(self):
        """The key of a property, and the expression of a computed one."""
        kind, text, _ = self.next()
        if text == "[" and kind == "mark":
            node = self.assign()
            self.need("]")
            return None, [node]
        if kind == "text":
            return units(text), []
        return [ord(c) for c in (text if kind == "name" else str(int(text)))], []

    def property(self):
        word, follows = self.word(), self.word(1)
        if word in ("get", "set") and follows not in (":", "(", ",", "}"):
            self.next()
            key, kids = self.key()
            return self.function("Getter" if word == "get" else "Setter", kids, key_units=key)
        shorthand = self.tokens[self.at][0] == "name" and follows in (",", "}")
        key, kids = self.key()
        if shorthand:
            return Node("Value", [Node("Name", name=word)], key_units=key)
        if self.word() == "(":
            return self.function("Method", kids, key_units=key)
        self.need(":")
        return Node("Value", kids + [self.assign()], key_units=key)


def top_names(kids):
    """What statements bind at their top: each name, and whether it is fixed."""
    out = []
    for kid in kids:
        if kid.kind in ("Let", "Const"):
            out += [(d.name, kid.kind == "Const") for d in kid.kids]
        elif kid.kind == "FunctionDecl":
            out.append((kid.name, False))
    return out


def scoped(node, kids):
    node.binds = top_names(kids)
    return node


def bound(node):
    """A function binds its own name, if it is an expression with one, its parameters, and the names at the top of its body."""
    own = [(node.name, True)] if node.kind == "Function" and node.name else []
    node.binds = own + [(p.name, False) for p in node.params] + top_names(node.body)
    return node


def nodes_of(script):
    """The nodes in post-order, each with its place as `id`."""
    out = []

    def visit(node):
        for kid in node.kids:
            visit(kid)
        node.id = len(out)
        out.append(node)
    visit(Reader(script).script())
    return out
