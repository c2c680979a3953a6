#!/usr/bin/env python3
"""Makes a worked row of mb_rows from scripts and the text that they are to give.

    tools/row.py FOLDER NAME TEXT SCRIPT SCRIPT.. [--policy FILE] [--schedule WORD] [--budget N] [--trace] [--sides] [--left N]

TEXT is the file of the text that the run writes; `--left` tells the units that it leaves. The row is the module FOLDER.NAME of crates/mb_rows/specs, which says what it
shows by its name. The head of the folder is written anew, from the rows that stand in it; a new folder has to be named in
specs/Lib.antt and cited by a function of src/lib.rt. `tools/row.py --heads` only writes the heads. `rt fmt`
lays the files out."""
import os
import re
import sys
import tomllib
import script_tree

SPECS = os.path.join(os.path.dirname(os.path.abspath(__file__)), "..", "crates", "mb_rows", "specs")
SIGNS = {"+": "Plus", "-": "Minus", "*": "Times", "/": "Slash", "%": "Percent", "===": "TripleEqual", "!==": "NotDoubleEqual",
         "<": "Less", ">": "Greater", "<=": "LessEqual", ">=": "GreaterEqual", "in": "In", "instanceof": "Instanceof",
         "!": "Not", "typeof": "Typeof", "delete": "DeleteSign"}
WORDS = {"true": "Truth true", "false": "Truth false", "null": "Null", "undefined": "Undefined"}
OPTIONS = {"--policy": True, "--schedule": True, "--budget": True, "--left": True, "--trace": False, "--sides": False}


def text(units):
    """A text as a list of code units."""
    if not units:
        return "[]"
    if all(32 <= u < 127 for u in units):
        return "(" + " ++ ".join(quoted(units[i:i + 80]) for i in range(0, len(units), 80)) + ")"
    return "(" + " ∷ ".join(str(u) for u in units) + " ∷ [])"


def quoted(units):
    return 'codes "%s"' % "".join("\\" + chr(u) if chr(u) in '"\\' else chr(u) for u in units)


def name(word):
    return text([ord(c) for c in word])


def places(nodes):
    return "(" + "".join("%d ∷ " % n.id for n in nodes) + "[])" if nodes else "[]"


def option(node):
    return "None" if node is None else "(Some %d)" % node.id


def function(node):
    params = "".join(name(p.name) + " ∷ " for p in node.params) + "[]"
    return "(record { params = %s; body = %s })" % (params, places(node.body))


def key(node):
    return "(Computed %d)" % node.kids[0].id if node.key_units is None else "(Written %s)" % text(node.key_units)


def form(node):
    """A node's form."""
    kind, kids = node.kind, [k.id for k in node.kids]
    parts = {
        "Script": lambda: [places(node.kids)], "Let": lambda: [places(node.kids)], "Const": lambda: [places(node.kids)],
        "Block": lambda: [places(node.kids)], "Seq": lambda: [places(node.kids)],
        "Array": lambda: [places(node.kids)], "Object": lambda: [places(node.kids)],
        "Decl": lambda: [name(node.name), option(node.kids[0] if kids else None)],
        "FunctionDecl": lambda: [name(node.name), function(node)],
        "If": lambda: [kids[0], kids[1], option(node.kids[2] if kids[2:] else None)],
        "For": lambda: [option(p) for p in node.parts[:3]] + [node.parts[3].id],
        "Return": lambda: [option(node.kids[0] if kids else None)],
        "Try": lambda: [node.parts[0].id, "(Some %s)" % name(node.parts[1].name) if node.parts[1] else "None",
                        option(node.parts[2]), option(node.parts[3])],
        "Param": lambda: [name(node.name)], "Name": lambda: [name(node.name)], "Text": lambda: [text(node.units)],
        "Number": lambda: ["(pos %d)" % node.whole], "Literal": lambda: ["(%s)" % WORDS[node.word]],
        "Value": lambda: [key(node), kids[-1]], "Method": lambda: [key(node), function(node)],
        "Getter": lambda: [key(node), function(node)], "Setter": lambda: [key(node), function(node)],
        "Function": lambda: ["(Some %s)" % name(node.name) if node.name else "None", function(node)],
        "Arrow": lambda: [function(node), str(node.block).lower()],
        "Member": lambda: [kids[0], name(node.name)],
        "Compound": lambda: [SIGNS[node.sign]] + kids, "Unary": lambda: [SIGNS[node.sign]] + kids,
        "Binary": lambda: [SIGNS[node.sign]] + kids,
        "Update": lambda: [str(node.plus).lower(), str(node.prefix).lower()] + kids,
        "Call": lambda: [kids[0], places(node.kids[1:])], "New": lambda: [kids[0], places(node.kids[1:])],
    }.get(kind, lambda: kids)()
    return " ".join([kind + "Form"] + [str(p) for p in parts])


def listed(indent, members, packed=False):
    """A list behind a sign of equality: a member a line, or as many as have room."""
    lines = []
    for member in members:
        if packed and lines and len(indent + lines[-1] + " " + member) < 110:
            lines[-1] += " " + member + " ∷"
        else:
            lines.append(member + " ∷")
    return "\n" + "".join(wrapped(indent, line) + "\n" for line in lines) + indent + "[]" if members else " []"


def wrapped(indent, line):
    """The line, broken behind a sign of a list where it is too wide."""
    line = indent + line
    if len(line) <= 116:
        return line
    cut = max(line.rfind(mark, len(indent), 112) + len(mark) for mark in (" ∷ ", " ++ ", "; "))
    if cut <= len(indent) + 3:
        return line
    return line[:cut].rstrip() + "\n" + wrapped(indent + "  ", line[cut:])


def program(title, script):
    nodes = script_tree.nodes_of(script)
    names = ["bound %d %s %s" % (n.id, name(x), str(fixed).lower()) for n in nodes for x, fixed in n.binds]
    return "abbrev %s : Program\n%s = record {\n  forms =%s;\n  names =%s;\n}\n" % (
        title, title, listed("    ", [form(n) for n in nodes], True), listed("    ", names, True))


def rule(row):
    kinds = {"hide": lambda: "Hide " + name(row["key"]), "read-only": lambda: "ReadOnly", "revoke": lambda: "Revoke",
             "substitute": lambda: "Substitute %s %s" % (name(row["key"]), constant(row["value"]))}
    side = lambda which: "(Some %d)" % "ABCDEFGH".index(row[which]) if which in row else "None"
    return "record { label = %s; kind = %s; owner = %s; viewer = %s }" % (
        name(row["label"]), kinds[row["kind"]](), side("owner"), side("viewer"))


def constant(value):
    if isinstance(value, bool):
        return "(Truth %s)" % str(value).lower()
    if isinstance(value, int):
        return "(Whole (pos %d))" % value if value >= 0 else "(Whole (negsuc %d))" % (-value - 1)
    return "(Text %s)" % name(value)


def letter(c, sides):
    return "Cut" if c == "X" else "Side %d" % ("ABCDEFGH" if sides else "LR").index(c)


def comment(title, script):
    lines = script.rstrip("\n").split("\n") if script.strip() else ["(empty)"]
    return "-- %s\n" % title + "".join("--     %s\n" % line for line in lines)


def module(options, files, wanted):
    """The text of a row's module, where `wanted` are the bytes of the text."""
    sides = "--sides" in options
    titles = ["side_" + c for c in "abcdefgh"[:len(files)]] if sides else ["left", "right"]
    scripts = [open(f).read() for f in files]
    rules = tomllib.loads(open(options["--policy"]).read())["rule"] if "--policy" in options else []
    word = [letter(c, sides) for c in options.get("--schedule", "")]
    traced, lettered = "--trace" in options, sides
    lines = [text(list(line)) for line in wanted.split(b"\n")[:-1]]
    shown = [o for o in ("--schedule", "--budget") if o in options]
    head = "-- " + " ".join((["sides"] if sides else ["run"]) + ["%s %s" % (o, options[o]) for o in shown] + ["--trace"] * traced) + "\n"
    head += "".join(comment(t, s) for t, s in zip(titles, scripts))
    if rules:
        head += comment("policy", open(options["--policy"]).read())
    body = "\n".join(program(t, s) for t, s in zip(titles, scripts)) + "\n"
    body += "abbrev policy : List Rule\npolicy =%s\n\n" % listed("  ", [rule(r) for r in rules])
    body += "abbrev schedule : List Letter\nschedule =%s\n\n" % listed("  ", word)
    body += "abbrev told : List (List ℕ)\ntold =%s\n\n" % listed("  ", lines)
    body += "abbrev stage : Stage\nstage = Story (%s ∷ []) policy schedule %s\n\n" % (" ∷ ".join(titles), options.get("--budget", "1000000"))
    shows = "Shows %s %s stage told" % (str(traced).lower(), str(lettered).lower())
    left = "--left" in options
    body += "pub Row : Type 0\nRow = %s\n\n" % ("%s × (stage.left ≡ %s)" % (shows, options["--left"]) if left else shows)
    body += "pub row : Row\nunfolding Row given Validate encode_utf8\nrow = %s\n" % ("((refl, refl), refl)" if left else "(refl, refl)")
    return imports(body) + "\n" + head + "\n" + body


MODULES = [
    ("std.specs.Prelude", "◌≡◌ refl ℕ List [] ◌∷◌ ◌++◌ Bool true false Option Some None codes pos negsuc"),
    ("std.specs.Char", "encode_utf8"),
    ("mb_tree.specs.declared.kind.Sign.TheVariants", "Plus Minus Times Slash Percent TripleEqual NotDoubleEqual Less Greater "
     "LessEqual GreaterEqual In Instanceof Not Typeof Delete"),
    ("mb_desc.specs.Validate", "Validate"),
    ("mb_world.specs.Value", "Undefined Null Truth Whole Text"),
    ("mb_world.specs.Form", "Written Computed ScriptForm LetForm ConstForm DeclForm FunctionDeclForm BlockForm EmptyForm "
     "ExprStmtForm IfForm WhileForm DoWhileForm ForForm ReturnForm ThrowForm BreakForm ContinueForm TryForm ParamForm ThisForm "
     "NameForm NumberForm TextForm LiteralForm ArrayForm ObjectForm ValueForm MethodForm GetterForm SetterForm FunctionForm "
     "ArrowForm GroupForm MemberForm IndexForm AssignForm CompoundForm UpdateForm CallForm NewForm CondForm OrForm AndForm "
     "SeqForm UnaryForm BinaryForm"),
    ("mb_world.specs.Graph", "Program Rule Hide ReadOnly Substitute Revoke"),
    ("mb_model.specs.Engine", "given"),
    ("mb_model.specs.Story", "Stage Letter Side Cut Story"),
    ("mb_rows.specs.Shows", "bound Shows"),
]


def imports(body):
    """A use line for each module of which the body names something."""
    plain = re.sub(r'"(?:[^"\\]|\\.)*"', '""', body)
    out = ""
    for path, words in MODULES:
        used = [w for w in words.split() if is_used(w, plain)]
        used = ["Delete as DeleteSign" if w == "Delete" else w for w in used]
        if used:
            out += "use Rattle.%s.{%s}\n" % (path, ", ".join(used))
    return out


def is_used(word, plain):
    mark = {"◌≡◌": "≡", "◌∷◌": "∷", "◌++◌": "++", "[]": "[]", "Delete": "DeleteSign"}.get(word, word)
    return mark in plain if not mark[0].isalpha() else re.search(r"(?<![\w.])%s(?![\w])" % mark, plain) is not None


def heads():
    """Writes the head of each folder of rows."""
    for folder in sorted(os.listdir(SPECS)):
        where = os.path.join(SPECS, folder)
        if os.path.isdir(where):
            rows = sorted(f[:-5] for f in os.listdir(where))
            path = "Rattle.mb_rows.specs.%s" % folder
            out = "".join("use %s.%s as %s\n" % (path, r, r) for r in rows)
            out += "".join("pub mod %s\n" % r for r in rows)
            out += "\n-- all rows of this folder\nabbrev pub Rows : Type 0\nRows =\n    %s\n" % " ×\n    ".join(r + ".Row" for r in rows)
            out += "\npub rows : Rows\nrows = (\n%s)\n" % "".join("  %s.row,\n" % r for r in rows)
            open(where + ".antt", "w").write(out)


def main(words):
    options, operands = {}, []
    while words:
        word = words.pop(0)
        if word in OPTIONS:
            options[word] = words.pop(0) if OPTIONS[word] else True
        else:
            operands.append(word)
    folder, title, wanted, files = operands[0], operands[1], operands[2], operands[3:]
    os.makedirs(os.path.join(SPECS, folder), exist_ok=True)
    with open(os.path.join(SPECS, folder, title + ".antt"), "w") as out:
        out.write(module(options, files, open(wanted, "rb").read()))


if __name__ == "__main__":
    if sys.argv[1:] != ["--heads"]:
        main(sys.argv[1:])
    heads()
