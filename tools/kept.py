#!/usr/bin/env python3
"""Writes the proofs that each part of a row keeps what its changes keep: crates/mb_model/proofs/Kept, one module for each module
of rows, from the text of the definitions. `Words` and `Rows` there, and what stands on them, are written by hand.

    tools/kept.py

For each definition `f : A → .. → Does B` it writes `keeps-f : (kept : Kept) .. → Goes kept (f ..)`, clause by clause: a `do` by
`keeps->>=`, an `if` by `keeps-if`, a call by the lemma of what is called. The check judges what it wrote; `rt fmt`
lays it out."""
import os
import re

TOP = os.path.join(os.path.dirname(os.path.abspath(__file__)), "..", "crates", "mb_model")
MODULES = """Operations.Makings Operations.Conversions Operations.Calls Operations.Descriptors Objects.Methods Objects.Proxies
Nodes.Scopes Nodes.Evaluation Nodes.Literals Nodes.References Nodes.BinaryOperators Nodes.UnaryOperators Nodes.Assignments
Nodes.Invocations Nodes.Statements BuiltIns.Arguments BuiltIns.Basics BuiltIns.ObjectMembers BuiltIns.ReflectMembers
BuiltIns.ErrorsAndFunctions BuiltIns.Arrays BuiltIns.ArrayMembers BuiltIns.ProxyMaking BuiltIns.Collections BuiltIns
Nodes.Functions Nodes Meaning""".split()
WORDS = """give is_value truth yes_or_no ends throw pass outcome answer again pay turn pay_each look value flag property keys make
make_symbol fail type_error range_error reference_error or_type_error unless_type_error log""".split()
# the modules with what is written by hand
BY_HAND = {
    "Words": "add_scope with_job",
    "Naming": "initialize write_value write_bound write_name",
    "Made": "make_constructor make_function fromdesc proxy_create",
    "Defined": "settled stored_in store_element define_on prop_defined must_define freeze_found flag_row revoke_proxy",
    "Methods": """prototype_set walk_from walk_at walk_row walk_unless ordinary_set_prototype ordinary_delete ordinary ruled method
trap_got proxy_method perform_kind perform_thing perform_row""",
    "Slots": "pair_stored pair_deleted access_slots access_kind access_thing access_row",
    "Descriptors": "todesc_from todesc",
    "Defining": "object_define object_define_property reflect_define",
    "Stored": """elements fresh_array map_found map_each map_row filter_kept filter_called filter_found filter_each filter_row
slice_found slice_each slice array_literal""",
}
BY_HAND = {name: module for module, names in BY_HAND.items() for name in names.split()} | {"alter": "Words"}
# what the lemmas of some definitions ask, where the definition's arguments answer it at once
ASKS = {"prop_defined": "refl", "must_define": "(λ _. refl)", "flag_row": "(λ _. tt)"}
# the words that have a task done, which must fit
TASKS = "outcome answer again value flag property keys".split()
# a row that stores into an array which it just made
LITERAL = "make_array c.side []", "elements c a 0 ns"


class Definition:
    def __init__(self, name, signature):
        self.name, self.clauses = name, []
        parts = split(signature, "→")
        self.arguments, self.result = [binder(p) for p in parts[:-1]], parts[-1]

    def is_row(self):
        return re.match(r"Does\b", self.result) is not None


def split(text, mark):
    """The text's parts, between marks outside of brackets."""
    parts, depth, last = [], 0, 0
    for i, c in enumerate(text):
        depth += (c in "({") - (c in ")}")
        if depth == 0 and c == mark:
            parts.append(text[last:i].strip())
            last = i + 1
    return parts + [text[last:].strip()]


def binder(part):
    """The names of arguments, if they have any, their type, and whether they are implicit."""
    named = re.match(r"^[({]([\w ]+) : (.*)[)}]$", part)
    if named:
        return named.group(1).split(), named.group(2), part[0] == "{"
    return [None], part, False


def pieces(text):
    """What stands between blanks outside of brackets and texts."""
    out, depth, quoted, last = [], 0, False, ""
    for c in text.strip():
        quoted = quoted != (c == '"')
        depth += (c in "({" and not quoted) - (c in ")}" and not quoted)
        if c.isspace() and depth == 0 and not quoted:
            out += [last] if last else []
            last = ""
        else:
            last += c
    return out + ([last] if last else [])


def word_at(text, word, start=0):
    depth = 0
    for i in range(start, len(text)):
        depth += (text[i] in "({") - (text[i] in ")}")
        if depth == 0 and text.startswith(word, i) and text[i - 1:i].isspace() and text[i + len(word):i + len(word) + 1].isspace():
            return i
    return -1


def bare(text):
    """Without brackets round the whole."""
    text = text.strip()
    while text.startswith("(") and len(pieces(text)) == 1:
        text = text[1:-1].strip()
    return text


def definitions(text):
    """The definitions of a module, in their order, with their clauses: patterns, first line of the body, other lines."""
    found, chunks = {}, []
    for line in text.split("\n"):
        if line.strip() and not line.startswith("--"):
            chunks[-1].append(line) if line[0].isspace() else chunks.append([line])
    for head, *rest in chunks:
        signature = re.match(r"abbrev pub (\S+) : (.*)$", head)
        if signature:
            whole = " ".join([signature.group(2)] + [line.strip() for line in rest])
            found[signature.group(1)] = Definition(signature.group(1), whole)
        elif head.split()[0] in found:
            name, at = head.split()[0], word_at(head + " ", "=")
            found[name].clauses.append((head[len(name):at].strip(), head[at + 1:].strip(), rest))
    return found


TEXTS = {m: open(os.path.join(TOP, "specs", m.replace(".", "/") + ".antt")).read() for m in MODULES}
FOUND = {m: definitions(TEXTS[m]) for m in MODULES}
HOME = {d.name: m for m in MODULES for d in FOUND[m].values() if d.is_row()}


class Clause:
    """One clause; `given` are the proofs of its arguments that are parts of rows."""

    def __init__(self, given, fits):
        self.given, self.fits = given, fits

    def fit(self, task):
        """That a task fits, and sees by itself what it may make an entry of."""
        task = bare(task)
        fits = "refl" if "DefineOwnProperty" in task else "tt"
        itself = "λ _ _. refl" if task.startswith("perform ") else "λ _. tt"
        return self.fits.get(task, "(λ _. (λ _. %s, %s))" % (fits, itself))

    def body(self, first, rest):
        if first != "do":
            return self.part(" ".join([first] + [line.strip() for line in rest]))
        lines = []
        for line in rest:
            if line.startswith("   "):
                lines[-1] += " " + line.strip()
            else:
                lines.append(line.strip())
        return self.steps(lines)

    def steps(self, lines):
        """The text of the steps, and its proof."""
        if len(lines) == 1:
            return self.part(lines[0])
        name, step = re.match(r"(\S+) ← (.*)$", lines[0]).groups()
        if (step, lines[1]) == LITERAL:
            return "(%s) >>= (λ %s. %s)" % (step, name, lines[1]), "keeps-array_literal kept c ns"
        after, proof = self.steps(lines[1:])
        return ("(%s) >>= (λ %s. %s)" % (step, name, after),
                "keeps->>= kept (%s) (λ %s. %s) (%s) (λ %s. %s)" % (step, name, after, self.part(step)[1], name, proof))

    def part(self, text):
        text = bare(text)
        if text.startswith("if "):
            then = word_at(text, "then")
            other = word_at(text, "else", then)
            yes, no = self.part(text[then + 4:other]), self.part(text[other + 4:])
            shown = "if %s then %s else %s" % (text[3:then].strip(), yes[0], no[0])
            return shown, "keeps-if kept (%s) (%s) (%s) (%s) (%s)" % (text[3:then].strip(), yes[0], no[0], yes[1], no[1])
        head, *arguments = pieces(text)
        if head == "change":
            return text, self.change(bare(arguments[0]))
        if head in self.given:
            return text, " ".join([self.given[head]] + arguments)
        if head in HOME:
            arguments = self.with_proofs(FOUND[HOME[head]][head], arguments)
        elif head not in WORDS:
            raise SystemExit("no lemma for %s" % text)
        if head == "ends":
            arguments = arguments + ["tt"]
        if head == "log":
            arguments = arguments + ["refl"]
        if head in TASKS:
            arguments = arguments + [self.fit(arguments[0])]
        if head == "make":
            thing, *rest = pieces(bare(arguments[0]))
            arguments = arguments + ["(%s)" % " ".join(["new-" + thing] + rest + (["refl"] if thing == "new_thing" else []))]
        if head in ASKS:
            arguments = arguments + [ASKS[head]]
        return text, " ".join(["keeps-" + head, "kept"] + arguments)

    def change(self, text):
        return "keeps-with_job kept %s %s" % re.match(r"with_job (\S+) \(CallJob (\S+)\)$", text).groups()

    def with_proofs(self, definition, arguments):
        """Behind each argument that is a part of a row its proof."""
        types = [t for names, t, implicit in definition.arguments if not implicit for _ in names]
        out = []
        for argument, type_ in zip(arguments, types):
            out.append(argument)
            if type_ == "Task":
                out.append(self.fit(argument))
            if "Does" in type_:
                function = re.match(r"λ ([^.]*)\. (.*)$", bare(argument))
                out.append("(λ %s. %s)" % (function.group(1), self.part(function.group(2))[1]) if function
                           else "(%s)" % self.part(argument)[1])
        return out + arguments[len(types):]


def lemma(definition):
    signature, names, parts, tasks = ["(kept : Kept)"], [], [], []
    for given, type_, implicit in definition.arguments:
        if implicit:
            signature.append("{%s : %s}" % (" ".join(given), type_))
            continue
        for _ in given:
            x = "x%d" % len(names)
            signature.append("(%s : %s)" % (x, type_))
            if type_ == "Task":
                tasks.append(len(names))
                signature.append("(p%d : (g : Graph) → Fitted kept %s g)" % (len(names), x))
            if "Does" in type_:
                parts.append(len(names))
                taken = split(bare(type_), "→")[:-1]
                ys = ["y%d" % i for i in range(len(taken))]
                binders = "".join("(%s : %s) " % pair for pair in zip(ys, taken))
                signature.append("(p%s : %sGoes kept (%s))" % (x, binders + "→ " if ys else "", " ".join([x] + ys)))
            names.append(x)
    out = wide("pub keeps-%s : %s → Goes kept (%s)" % (definition.name, " ".join(signature), " ".join([definition.name] + names)))
    for patterns, first, rest in definition.clauses:
        shown, given, fits = [], {}, {}
        for i, pattern in enumerate(pieces(patterns) + names[len(pieces(patterns)):]):
            shown.append(pattern)
            if i in parts:
                shown.append("_" if pattern == "_" else "keeps-" + pattern)
                given[pattern] = "keeps-" + pattern
            if i in tasks:
                shown.append("fits-" + pattern)
                fits[pattern] = "fits-" + pattern
        proof = Clause(given, fits).body(first, rest)[1]
        out += wide("keeps-%s kept %s = %s" % (definition.name, " ".join(shown), proof))
    return out


def wide(line):
    """The line with its end, broken at blanks where it is too wide."""
    out, indent = "", ""
    while len(indent + line) > 118:
        cut = line.rfind(" ", 0, 116 - len(indent))
        out, line, indent = out + indent + line[:cut] + "\n", line[cut + 1:], "    "
    return out + indent + line + "\n"


def named(word, body):
    """Whether the body names it."""
    word = word.split(" as ")[-1]
    if "◌" in word:
        return all(re.search(r"(?<![\w-])%s(?![\w-])" % re.escape(p), body) if p.isalpha() else p in body for p in word.split("◌") if p)
    return word in body if not word[0].isalpha() else re.search(r"(?<![\w-])%s(?![\w-])" % re.escape(word), body) is not None


def imports(module, body):
    lines = {"Rattle.std.specs.Prelude": ["if◌then◌else◌"]}
    text = TEXTS[module]
    for path, names in re.findall(r"^use (Rattle\.[\w.]+)\.\{(.*)\}$", text, re.M):
        lines.setdefault(path, []).extend(n.strip() for n in names.split(","))
    own = re.findall(r"^pub (?:data|record) (\w+)", text, re.M)
    for block in re.findall(r"^pub data .*? where\n((?:  .*\n)+)", text, re.M):
        own += re.findall(r"^  (\w+) :", block, re.M)
    lines["Rattle.mb_model.specs." + module] = own + list(FOUND[module])
    lines.setdefault("Rattle.mb_world.specs.Graph", []).append("Graph")
    lines["Rattle.std.proofs.Common"] = ["refl"]
    lines["Rattle.mb_model.proofs.Kept.Words"] = ["Kept", "Fitted", "Goes"]
    lines["Rattle.mb_model.proofs.Kept.Made"] = sorted(set(re.findall(r"(?<=\()new-[^\s()]+", body)))
    for lemma_ in sorted(set(re.findall(r"keeps-[^\s()]+", body))):
        name = lemma_[6:]
        if name in BY_HAND:
            lines.setdefault("Rattle.mb_model.proofs.Kept." + BY_HAND[name], []).append(lemma_)
        elif name in HOME and HOME[name] != module:
            lines.setdefault("Rattle.mb_model.proofs.Kept." + HOME[name].replace(".", ""), []).append(lemma_)
        elif name in WORDS + [">>=", "if"]:
            lines["Rattle.mb_model.proofs.Kept.Words"].append(lemma_)
    out = "".join(line + "\n" for line in re.findall(r"^use \S+ as \w+$", text, re.M))
    for path, names in lines.items():
        used = [n for i, n in enumerate(names) if n not in names[:i] and named(n, body)]
        out += "use %s.{%s}\n" % (path, ", ".join(used)) if used else ""
    return out


def main():
    for module in MODULES:
        rows = [d for d in FOUND[module].values() if d.is_row() and d.name not in BY_HAND]
        body = "\n".join(lemma(d) for d in rows)
        if body:
            with open(os.path.join(TOP, "proofs", "Kept", module.replace(".", "") + ".antt"), "w") as out:
                out.write(imports(module, body) + "\n-- what the parts of these rows keep (written by tools/kept.py)\n\n" + body)


if __name__ == "__main__":
    main()
