"""Single changes in the bodies of functions: what tests/wrong-programs asks the prover to refuse.

A change is one token for another, one part left out, or two parts swapped. Contracts, comments, specs and proofs are never
touched. The text is read as tokens and brackets, no more: a change that is no program is left to the compiler to refuse.
"""
import re
from collections import namedtuple

Token = namedtuple("Token", "kind text start end")
# head: where its `fn` stands; owner: of a method its type; of a trait's function what the prover calls the two together, as MembersIterator
Function = namedtuple("Function", "name params returns promised first last head owner", defaults=[0, ""])
Change = namedtuple("Change", "start end new kind")
# name: what the prover calls it in its crate, with / for ::; home: where it stands in its file; touches: the functions whose proofs may notice
Searched = namedtuple("Searched", "name home touches changes")

TOKEN = re.compile(
    r"""(?P<space>\s+)|(?P<comment>//[^\n]*)
    |(?P<bytes>b?"(?:[^"\\]|\\[\s\S])*"|b'(?:[^'\\]|\\.)+')|(?P<label>'\w+)
    |(?P<number>\d[\d_]*(?:[ui](?:8|16|32|64|size))?)|(?P<word>\w+)
    |(?P<sign>\.\.=|::|->|=>|==|!=|<=|>=|<<|>>|&&|\|\||\+=|-=|\.\.|[^\s\w])""",
    re.X,
)
OPEN, CLOSE = {"(": ")", "[": "]", "{": "}"}, {")", "]", "}"}
OTHERS = {
    "<": ("<=", ">="), "<=": ("<", ">"), ">": (">=", "<="), ">=": (">", "<"), "==": ("!=",), "!=": ("==",),
    "&": ("|",), "|": ("&",), "&&": ("||",), "||": ("&&",), "+": ("-",), "-": ("+",), "*": ("+",), "/": ("%",), "%": ("/",),
    "<<": (">>",), ">>": ("<<",), "+=": ("-=",), "-=": ("+=",), "..": ("..=",), "..=": ("..",),
}
SUMS = {"+", "-", "*", "/", "%", "<<", ">>", "+=", "-="}
COMPARISONS = {"<", "<=", ">", ">=", "==", "!=", "&&", "||", "true", "false"}
HEADS = {"if", "while", "for", "match", "loop"}


def blanked(text):
    """The text with every contract and ghost line blank, all places kept; where an `ensures` stood, and where what a trait's function gives."""
    promises, gives = [], []
    for m in re.finditer(r"\bghost use [^;]*;", text):
        text = text[: m.start()] + re.sub(r"[^\n]", " ", m[0]) + text[m.end() :]
    for m in re.finditer(r"^[ \t]*(requires|ensures|ghost)\*?(?:[ \t]+(\w+))?:?(?:[ \t]*=)?\s*\{", text, re.M):
        depth, end = 1, m.end()
        while depth:
            depth += {"{": 1, "}": -1}.get(text[end], 0)
            end += 1
        text = text[: m.start()] + re.sub(r"[^\n]", " ", text[m.start() : end]) + text[end:]
        if m[1] == "ensures":
            promises.append(m.start())
        elif m[1] == "ghost" and (m[2] or "").endswith("_gives"):
            gives.append((m.start(), m[2].removesuffix("_gives")))
    return text, promises, gives


def tokens_of(text):
    return [
        Token(m.lastgroup, m[0], m.start(), m.end()) for m in TOKEN.finditer(text) if m.lastgroup not in ("space", "comment")
    ]


def called(words):
    """A type or a trait in one word, as the prover puts it: `From < u64 >` is FromU64, `& str` is RefStr."""
    return "".join({"&": "Ref"}.get(word, word[:1].upper() + word[1:]) for word in words if word == "&" or word[0].isalnum())


class Source:
    """One file: its tokens, the partner of each bracket, and its items. Of a module of its crate the name is given."""

    def __init__(self, text, module=""):
        self.text, self.module = text, module
        plain, self.promises, self.gives = blanked(text)
        self.tokens = tokens_of(plain)
        self.partner, stack = {}, []
        for i, t in enumerate(self.tokens):
            if t.text in OPEN:
                stack.append(i)
            elif t.text in CLOSE:
                j = stack.pop()
                self.partner[i], self.partner[j] = j, i

    def at(self, i):
        return self.tokens[i].text if 0 <= i < len(self.tokens) else ""

    def past(self, i):
        """The token after i, over a whole bracket."""
        return (self.partner[i] if self.at(i) in OPEN else i) + 1

    def until(self, i, stops, last):
        """The first token from i on, outside brackets, that is one of the stops."""
        while i < last and self.at(i) not in stops:
            i = self.past(i)
        return i

    def parts(self, first, last):
        """What stands between two brackets, parted by commas: pairs of tokens, the second not included."""
        out, i = [], first
        while i < last:
            end = self.until(i, {","}, last)
            if i < end:
                out.append((i, end))
            i = end + 1
        return out

    def words(self, first, last):
        return " ".join(t.text for t in self.tokens[first:last])

    def span(self, first, last):
        """The text of the tokens from first to before last."""
        return self.text[self.tokens[first].start : self.tokens[last - 1].end]

    def past_types(self, i):
        """The token i, or what stands behind the parameters for types and lifetimes that begin there."""
        depth = 0
        while self.at(i) == "<" or depth:
            depth += {"<": 1, ">": -1, ">>": -2}.get(self.at(i), 0)
            i += 1
        return i

    def impls(self):
        """Each `impl`: its brackets, and the type; of a trait for a type, what the prover calls the two together."""
        found = []
        for i, t in enumerate(self.tokens):
            if t.text == "impl" and self.at(i - 1) in ("", ";", "{", "}", "]"):
                head = self.past_types(i + 1)
                first = self.until(head, {"{"}, len(self.tokens))
                words = self.words(head, self.until(head, {"where"}, first)).split(" ")
                if "for" in words:
                    at = words.index("for")
                    owner = called(words[at + 1 :]) + called(words[:at])
                else:
                    owner = re.match(r"(?:\w+ :: )*(\w*)", " ".join(words))[1]
                found.append((first, self.partner[first], owner))
        return found

    def functions(self):
        found, impls = [], self.impls()
        for i, t in enumerate(self.tokens):
            if t.text != "fn" or self.tokens[i + 1].kind != "word":
                continue
            opened = self.past_types(i + 2)
            close = self.partner[opened]
            body = self.until(close + 1, {"{", ";"}, len(self.tokens))
            if self.at(body) == ";":  # a trait asks for it
                continue
            params = [(self.at(a), self.words(a + 2, e)) for a, e in self.parts(opened + 1, close) if self.at(a + 1) == ":"]
            returns = self.words(close + 2, body) if self.at(close + 1) == "->" else ""
            around, end, owner = next((block for block in impls if block[0] < i < block[1]), (0, 0, ""))
            promised = any(t.start < p < self.tokens[body].start for p in self.promises) or any(
                name == self.at(i + 1) and self.tokens[around].start < p < self.tokens[end].start for p, name in self.gives
            )
            found.append(Function(self.at(i + 1), params, returns, promised, body, self.partner[body], i, owner))
        return found

    def place(self, first, last):
        """From where to where these tokens stand in the text, the last one included."""
        return self.tokens[first].start, self.tokens[last].end

    def aliases(self):
        """Each other name of a type, with the type."""
        found = {}
        for i, t in enumerate(self.tokens):
            if t.text == "type" and self.at(i + 2) == "=":
                found[self.at(i + 1)] = self.words(i + 3, self.until(i, {";"}, len(self.tokens)))
        return found

    def enums(self):
        """Of each enum its cases, each with what it holds."""
        found = {}
        for i, t in enumerate(self.tokens):
            if t.text == "enum":
                cases, opened = {}, self.past_types(i + 2)
                for a, e in self.parts(opened + 1, self.partner[opened]):
                    cases[self.at(a)] = self.words(a + 1, e)
                found[self.at(i + 1)] = cases
        return found

    def structs(self):
        """Of each struct its fields with their types; those of a tuple struct are called 0, 1, 2."""
        found = {}
        for i, t in enumerate(self.tokens):
            opened = self.past_types(i + 2) if t.text == "struct" else i
            if self.at(opened) in ("{", "(") and opened > i:
                fields = {}
                for n, (a, e) in enumerate(self.parts(opened + 1, self.partner[opened])):
                    a += self.at(a) == "pub"
                    fields[self.at(a) if self.at(a + 1) == ":" else str(n)] = self.words(a + 2 if self.at(a + 1) == ":" else a, e)
                found[self.at(i + 1)] = fields
        return found

    def constants(self):
        """Each constant with its type and the tokens of its value."""
        found = {}
        for i, t in enumerate(self.tokens):
            if t.text == "const":
                sign = self.until(i, {"="}, len(self.tokens))
                found[self.at(i + 1)] = (self.words(i + 3, sign), sign + 1, self.until(sign, {";"}, len(self.tokens)))
        return found


class World:
    """What the changes of one crate may name: the functions, enums and constants of all crates, by crate."""

    def __init__(self, sources):
        self.functions, self.enums, self.structs, self.constants = {}, {}, {}, {}
        self.aliases, self.modules = {}, {}  # modules: of each type the one that it stands in
        for crate, source in sources:
            for f in source.functions():
                self.functions[crate, f.name] = f
            for name, cases in source.enums().items():
                self.enums[crate, name] = cases
            for name, fields in source.structs().items():
                self.structs[crate, name] = fields
            for name in {**source.enums(), **source.structs()}:
                self.modules[crate, name] = source.module
            for name, kind in source.aliases().items():
                self.aliases[crate, name] = kind
            for name, (kind, _, _) in source.constants().items():
                self.constants.setdefault((crate, kind), []).append(name)

    def function(self, crate, path):
        """The function of that path, of another crate or of a module of this one."""
        other = self.functions.get((path[-2], path[-1])) if len(path) > 1 else None
        return other or self.functions.get((crate, path[-1]))

    def called(self, crate, source, function):
        """What the prover calls a function of the crate: a method stands in the module of its type, wherever its `impl` stands."""
        module = self.modules.get((crate, function.owner), source.module)
        return "/".join(filter(None, [module, function.owner, function.name]))

    def result(self, crate, kind):
        """Of a Result, which may have another name, what its Ok and its Err hold, and the crate that says so; else nothing."""
        name = kind.split(" ")[-1]
        if "<" not in kind:
            homes = sorted((c != crate, c) for c, n in self.aliases if n == name)
            crate, kind = (homes[0][1], self.aliases[homes[0][1], name]) if homes else (crate, kind)
        m = re.fullmatch(r"Result < (.*) , ([\w: ]+) >", kind)
        return (m[1], m[2], crate) if m else ("", "", crate)

    def plain(self, source, crate, home, name):
        """Of an enum that the crate `home` speaks of, the cases that hold nothing, as the file of another crate or of that one says them."""
        name = name.split(" ")[-1]
        if (home, name) in self.structs and (home, name) not in self.enums:
            return []
        where = min(((c != home, c) for c, n in self.enums if n == name), default=(False, ""))[1]
        cases = [case for case, holds in self.enums.get((where, name), {}).items() if not holds]
        own = where == crate and self.modules[where, name] == source.module
        path = [] if own else ["crate" if where == crate else where, *filter(None, [self.modules.get((where, name))])]
        return ["::".join([*path, name, case]) for case in cases]

    def cases(self, crate, name):
        return self.parts(self.enums, crate, name)

    def fields(self, crate, name):
        return self.parts(self.structs, crate, name)

    @staticmethod
    def parts(types, crate, name):
        """The cases or fields of the type of that name, of this crate before another."""
        own = types.get((crate, name))
        return own or next((c for (_, n), c in sorted(types.items()) if n == name), {})

    def constant(self, crate, path):
        """The type of a constant, and the constants of its crate and type."""
        home = path[-2] if len(path) > 1 and any(c == path[-2] for c, _ in self.constants) else crate
        return next(((k, names) for (c, k), names in self.constants.items() if c == home and path[-1] in names), ("", []))


class Body:
    """The changes of one body, between two brackets."""

    def __init__(self, source, world, crate, function):
        self.s, self.world, self.crate, self.f = source, world, crate, function
        self.changes, self.binders, self.locals = [], set(), []
        for name, kind in function.params:
            self.locals.append((name, kind, function.first, function.last))

    def change(self, first, last, new, kind):
        """The tokens from first to before last become the new text."""
        start, end = self.s.tokens[first].start, self.s.tokens[last - 1].end
        if self.s.text[start:end] != new:
            self.changes.append(Change(start, end, new, kind))

    def all(self):
        inside = range(self.f.first + 1, self.f.last)
        self.bind()
        for i in inside:
            self.token(i)
            self.call(i)
            self.local(i)
            self.head(i)
        self.block(self.f.first)
        return sorted(set(self.changes), key=lambda c: (c.start, c.end, c.kind, c.new))

    # What each local is, as far as the text shows it.

    def path(self, i):
        """The words a::b::c that end with the token i."""
        words = [self.s.at(i)]
        while self.s.at(i - 1) == "::":
            i -= 2
            words.insert(0, self.s.at(i))
        return i, words

    def type_of(self, first, last):
        texts, i = [], first
        while i < last:
            texts.append(self.s.at(i))
            i = self.s.past(i)
        if COMPARISONS & set(texts) or texts[:1] == ["!"]:
            return "bool"
        end = first
        while self.s.at(end + 1) == "::":
            end += 2
        path = self.path(end)[1]
        if self.s.tokens[first].kind == "number":
            return re.sub(r"^[\d_]+", "", texts[0]) or "u64"
        if len(path) > 1 and path[-1] in self.world.cases(self.crate, path[-2]):
            return path[-2]
        function = self.world.function(self.crate, path) if self.s.at(end + 1) == "(" else None
        if function:
            return function.returns.split(" ")[-1]
        return self.world.constant(self.crate, path)[0] or self.type_at(first)

    def type_at(self, i, whole=False):
        """The type of the local that the token i names; of a field of it nothing is known, unless the whole is asked for."""
        if self.s.at(i + 1) == "." and not whole:
            return ""
        found = [k for name, k, a, e in self.locals if name == self.s.at(i) and a <= i < e]
        return found[-1] if found else ""

    def bind(self):
        """The locals, each with its type and the tokens between which it is known."""
        blocks = []
        for i in range(self.f.first, self.f.last):
            if self.s.at(i) == "{":
                blocks.append(self.s.partner[i])
            while blocks and blocks[-1] <= i:
                blocks.pop()
            if self.s.at(i) == "let":
                self.bind_let(i, blocks[-1])
            elif self.s.at(i) == "for":
                head = self.s.until(i, {"{"}, self.f.last)
                self.binders.add(i + 1)
                self.locals.append((self.s.at(i + 1), self.type_of(i + 3, self.s.until(i, {"..", "..="}, head)), head, self.s.partner[head]))
            elif self.s.at(i) == "match":
                for a, arrow, end in self.arms(self.s.until(i, {"{"}, self.f.last)):
                    self.bind_pattern(a, arrow, arrow, end)

    def bind_let(self, i, block):
        sign = self.s.until(i, {"="}, block)
        if self.s.at(i - 1) in ("if", "while"):
            head = self.s.until(sign, {"{"}, block)
            return self.bind_pattern(i + 1, sign, head, self.s.partner[head])
        name = i + 2 if self.s.at(i + 1) == "mut" else i + 1
        end = self.s.until(sign, {";"}, block)
        kind = self.s.words(name + 2, sign) if self.s.at(name + 1) == ":" else self.type_of(sign + 1, end)
        self.binders.add(name)
        self.locals.append((self.s.at(name), kind, end, block))

    def bind_pattern(self, first, last, known, end):
        """A pattern such as Found::Pair(x, y)."""
        self.binders.update(range(first, last))
        at = self.s.until(first, {"("}, last)
        if at < last:
            path = self.path(at - 1)[1]
            holds = self.world.cases(self.crate, path[-2] if len(path) > 1 else "").get(path[-1], "").strip("( )").split(" , ")
            for (a, _), kind in zip(self.s.parts(at + 1, self.s.partner[at]), holds):
                self.locals.append((self.s.at(a), kind, known, end))

    def arms(self, opening):
        """Of a match, for each arm its pattern's first token, its arrow and the token after its body."""
        i, last = opening + 1, self.s.partner[opening]
        while i < last:
            arrow = self.s.until(i, {"=>"}, last)
            end = self.s.past(arrow + 1) if self.s.at(arrow + 1) == "{" else self.s.until(arrow, {","}, last)
            yield i, arrow, end
            i = end + 1 if self.s.at(end) == "," else end

    # The changes of one token.

    def token(self, i):
        t = self.s.tokens[i]
        prefix = self.s.at(i - 1) in OPEN or self.s.at(i - 1) in OTHERS or self.s.at(i - 1) in {",", "=", "=>", "return", "!", ";"}
        if t.text == "!":
            self.change(i, i + 1, "", "test")
        elif t.text in OTHERS and not (prefix and t.text in "&*-"):
            for other in OTHERS[t.text]:
                self.change(i, i + 1, other, "range" if ".." in t.text else "sum" if t.text in SUMS else "test")
        elif t.text in ("true", "false"):
            self.change(i, i + 1, "false" if t.text == "true" else "true", "constant")
        elif t.kind == "number":
            self.number(i)
        elif t.kind == "bytes" and t.text.startswith("b'") and len(t.text) == 4:
            self.change(i, i + 1, "b'%s'" % chr(ord(t.text[2]) + 1), "constant")
        elif t.kind == "word" and self.s.at(i - 1) == ".":
            self.field(i)
        elif t.text in ("Some", "Ok", "Err") and self.s.at(i + 1) == "(" and i not in self.binders:
            self.held(i)
        elif t.kind == "word" and self.s.at(i + 1) != "::":
            self.named(i)

    def held(self, i):
        """The cases of Option and Result, as those of an enum of this repository. `Some(..)` becomes `None`. `Err(..)` becomes `Ok` of the
        first case that holds nothing, or of `()`; `Ok(..)` the first such refusal, and `Ok(())` the last one too, its neighbours."""
        word, end = self.s.at(i), self.s.past(i + 1)
        good, bad, home = self.world.result(self.crate, self.f.returns)
        if word == "Some":
            others = ["None"]
        elif word == "Err":
            others = [f"Ok({case})" for case in (["()"] if good == "( )" else self.world.plain(self.s, self.crate, home, good)[:1])]
        else:
            cases = self.world.plain(self.s, self.crate, home, bad)
            others = [f"Err({case})" for case in (cases[:1] + cases[-1:] if good == "( )" else cases[:1])]
        for other in others:
            self.change(i, end, other, "answer")

    def field(self, i):
        """A field of a local becomes the others of its type."""
        fields = self.world.fields(self.crate, self.type_at(i - 2, True).split(" ")[-1])
        for other in fields:
            if fields[other] == fields.get(self.s.at(i)):
                self.change(i, i + 1, other, "field")

    def number(self, i):
        m = re.match(r"([\d_]+)(.*)", self.s.at(i))
        n = int(m[1].replace("_", ""))
        if self.s.at(i - 1) == ".":
            return self.field(i)
        for other in sorted({n + 1, max(n - 1, 0), 0} - {n}):
            self.change(i, i + 1, str(other) + m[2], "constant")

    def named(self, i):
        """A named constant becomes its neighbours; a case of an enum its neighbours of the same shape, and the first of all."""
        first, path = self.path(i)
        names = self.world.constant(self.crate, path)[1]
        if path[-1] in names and i not in self.binders:
            return self.neighbours(i, names, "constant")
        cases = self.world.cases(self.crate, path[-2]) if len(path) > 1 else {}
        if path[-1] not in cases or i in self.binders:
            return
        self.neighbours(i, [c for c in cases if cases[c] == cases[path[-1]]], "answer")
        plain = next((c for c in cases if not cases[c]), None)
        if plain and cases[path[-1]]:
            self.change(i, self.s.past(i + 1), plain, "answer")
        elif plain:
            self.change(i, i + 1, plain, "answer")

    def neighbours(self, i, names, kind):
        at = names.index(self.s.at(i))
        for other in (names[at - 1], names[(at + 1) % len(names)]):
            self.change(i, i + 1, other, kind)

    # Calls and cases with what they hold: a part and the next of its type swapped.

    def call(self, i):
        if self.s.at(i) == "[" and self.s.tokens[i - 1].kind != "word":
            parts = self.s.parts(i + 1, self.s.partner[i])
            for (a, b), (c, d) in zip(parts, parts[1:]):
                self.swap(a, b, c, d, "swap")
        if self.s.at(i) not in ("(", "{") or self.s.tokens[i - 1].kind != "word":
            return
        path = self.path(i - 1)[1]
        if self.s.at(i) == "{" and not path[-1][0].isupper():
            return
        parts = self.s.parts(i + 1, self.s.partner[i])
        function = self.world.function(self.crate, path)
        kinds = [k for _, k in function.params] if function and self.s.at(i) == "(" else [""] * len(parts)
        if self.s.at(i) == "{":
            parts = [(a + 2, e) for a, e in parts if self.s.at(a + 1) == ":"]
        for n in range(len(parts)):
            m = next((m for m in range(n + 1, len(parts)) if kinds[n : n + 1] == kinds[m : m + 1]), None)
            if m is not None:
                self.swap(*parts[n], *parts[m], "swap")

    def swap(self, a, b, c, d, kind):
        """The tokens a to before b and c to before d change places."""
        between = self.s.text[self.s.tokens[b - 1].end : self.s.tokens[c].start]
        self.change(a, d, self.s.span(c, d) + between + self.s.span(a, b), kind)

    def local(self, i):
        """A local becomes another of its type."""
        if self.s.tokens[i].kind != "word" or i in self.binders or self.s.at(i - 1) in (".", "::") or self.s.at(i + 1) in ("::", "("):
            return
        if self.s.at(i + 1) == ":" or (self.s.at(i - 1) in ("{", ",") and self.s.at(i + 1) in (",", "}") and self.in_braces(i)):
            return
        kind = self.type_at(i)
        if not kind:
            return
        others = []
        for name, k, a, e in self.locals:
            if k == kind and a < i < e and name != self.s.at(i) and name not in others and self.type_of_name(name, i) == kind:
                others.append(name)
        for other in others[:2]:
            self.change(i, i + 1, other, "local")

    def type_of_name(self, name, i):
        found = [k for n, k, a, e in self.locals if n == name and a < i < e]
        return found[-1] if found else ""

    def in_braces(self, i):
        depth = [j for j in range(self.f.first, i) if self.s.at(j) in OPEN and self.s.partner[j] > i]
        return self.s.at(depth[-1]) == "{"

    # Conditions, arms and statements.

    def head(self, i):
        word = self.s.at(i)
        if word in ("if", "while") and self.s.at(i + 1) != "let":
            end = self.s.until(i + 1, {"{"}, self.f.last)
            for always in ("true", "false") if word == "if" else ("false",):
                self.change(i + 1, end, always, "condition")
        if word == "match":
            arms = list(self.arms(self.s.until(i, {"{"}, self.f.last)))
            for (_, a, b), (_, c, d) in zip(arms, arms[1:]):
                self.swap(a + 1, b, c + 1, d, "arm")

    def block(self, opening):
        """Each statement of a block left out, but a `let` and the last value; then those of the blocks inside."""
        i, last = opening + 1, self.s.partner[opening]
        while i < last:
            end, whole = self.statement(i, last)
            if whole and self.s.at(i) != "let":
                self.change(i, end, "", "dropped")
            for j in range(i, end):
                if self.s.at(j) == "{" and not self.s.at(j - 1)[:1].isupper() and self.s.at(j - 1) != "=>":
                    self.inner(i, j, end)
            i = end

    def inner(self, first, j, end):
        """A block directly inside the statement, and not the arms of a match."""
        outer = [k for k in range(first, j) if self.s.at(k) == "{" and self.s.partner[k] > j]
        head = j - 1
        while head >= first and self.s.at(head) not in HEADS | {"else", "=>", ";", "{", "}"}:
            head = self.s.partner[head] - 1 if self.s.at(head) in CLOSE else head - 1
        if not outer and self.s.at(head) != "match":
            self.block(j)
        elif not outer:
            for _, arrow, _ in self.arms(j):
                if self.s.at(arrow + 1) == "{":
                    self.block(arrow + 1)

    def statement(self, i, last):
        """The token after a statement, and whether it may be left out."""
        start = i + 2 if self.s.tokens[i].kind == "label" else i
        if self.s.at(start) not in HEADS:
            end = self.s.until(i, {";"}, last)
            return (end + 1, True) if end < last else (last, False)
        end = self.s.past(self.s.until(start, {"{"}, last))
        chained = False
        while self.s.at(end) == "else":
            end, chained = self.s.past(self.s.until(end, {"{"}, last)), True
        return end, not chained and self.s.at(start) != "match"


def table_changes(source, world, crate, name, first, last):
    """The entries of a table, each made the next: a number one larger, a case of an enum or a named number the one after it, a word with
    another first letter."""
    body = Body(source, world, crate, Function(name, [], "", True, first, last))
    for i in range(first, last):
        t = source.tokens[i]
        if t.kind == "number":
            m = re.match(r"(\d+)(.*)", t.text)
            body.change(i, i + 1, str(int(m[1]) + 1) + m[2], "table")
        if t.text[:2] == 'b"' and t.text[2].isalpha():
            body.change(i, i + 1, 'b"' + chr(ord(t.text[2]) + 1) + t.text[3:], "table")
        path = body.path(i)[1]
        cases = list(world.cases(crate, path[-2])) if len(path) > 1 else []
        names = cases if t.text in cases else world.constant(crate, path)[1]
        if t.text in names:
            body.change(i, i + 1, names[(names.index(t.text) + 1) % len(names)], "table")
    return body.changes


def changes_of(source, world, crate):
    """Each function that promises something, and each table that functions of the file use, with its changes; and the others, each with why."""
    found, left_out, functions = [], [], source.functions()
    for f in functions:
        name = world.called(crate, source, f)
        if f.promised:
            found.append(Searched(name, source.place(f.head, f.last), [name], Body(source, world, crate, f).all()))
        else:
            left_out.append(("because they promise nothing", name))
    for name, (kind, first, last) in source.constants().items():
        if kind.startswith("["):
            users = [world.called(crate, source, f) for f in functions if name in source.words(f.first, f.last).split(" ")]
            changes, name = table_changes(source, world, crate, name, first + 1, last - 1), "/".join(filter(None, [source.module, name]))
            if users:
                found.append(Searched(name, source.place(first, last), users, changes))
            else:
                left_out.append(("because only other files use them", name))
    return found, left_out
