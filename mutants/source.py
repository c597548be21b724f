"""The mutants of a crate's src/: function bodies and constants. Contracts, `ghost` lines and comments are left as they are."""
import re

TOKEN = re.compile(
    r"(?P<skip>\s+|//[^\n]*)|(?P<text>b\"(?:\\.|[^\"\\])*\")|(?P<byte>b'(?:\\.|[^'\\])')|(?P<number>\d[\d_]*(?:[ui](?:8|16|32|64|size))?)"
    r"|(?P<name>[A-Za-z_]\w*)|(?P<op><<=|>>=|\.\.=|<<|>>|<=|>=|==|!=|&&|\|\||\+=|-=|\*=|/=|->|=>|::|\.\.|.)", re.S)

COMPARE = {"<": ["<=", ">"], "<=": ["<", ">="], ">": [">=", "<"], ">=": [">", "<="], "==": ["!=", "<="], "!=": ["==", "<"]}
OPERATE = {"+": "-", "-": "+", "*": "+", "/": "%", "%": "/", "<<": ">>", ">>": "<<", "&": "|", "|": "&", "^": "|", "&&": "||", "||": "&&",
           "+=": "-=", "-=": "+="}


class Token:
    def __init__(self, kind, text, start, end):
        self.kind, self.text, self.start, self.end = kind, text, start, end


def tokens_of(text):
    found, at = [], 0
    while at < len(text):
        match = TOKEN.match(text, at)
        if match.lastgroup != "skip":
            found.append(Token(match.lastgroup, match.group(), match.start(), match.end()))
        at = match.end()
    return found


def closing(tokens, i):
    """The place of the bracket that closes the one at i."""
    pairs, depth = {"(": ")", "[": "]", "{": "}"}, []
    for j in range(i, len(tokens)):
        t = tokens[j].text
        if tokens[j].kind == "op":
            if t in pairs:
                depth.append(pairs[t])
            elif depth and t == depth[-1]:
                depth.pop()
                if not depth:
                    return j
    raise ValueError("a bracket is not closed")


def parts(tokens, i, j):
    """The parts between the brackets at i and j that commas separate, each from its first to its last token."""
    found, start, k = [], i + 1, i + 1
    while k < j:
        if tokens[k].kind == "op" and tokens[k].text in "([{":
            k = closing(tokens, k)
        elif tokens[k].text == ",":
            found.append((start, k - 1))
            start = k + 1
        k += 1
    if start < j:
        found.append((start, j - 1))
    return found


class Source:
    """A file, taken apart: its functions with their bodies, constants, and the types of what it declares."""

    def __init__(self, text):
        self.text, self.tokens = text, tokens_of(text)
        self.functions, self.constants, self.parameters, self.results, self.fields, self.variants = [], [], {}, {}, {}, {}
        self.starts = {}
        t, i = self.tokens, 0
        while i < len(t):
            word = t[i].text
            if word == "fn":
                i = self.function(i)
            elif word == "const":
                name, j = t[i + 1].text, i + 2
                while t[j].text != "=":
                    j = closing(t, j) + 1 if t[j].text == "[" else j + 1
                kind = text[t[i + 3].start:t[j - 1].end]
                k = j
                while t[k].text != ";":
                    k += 1
                self.constants.append((name, kind, j + 1, k))
                i = k
            elif word in ("struct", "enum") and t[i + 2].text == "{":
                name, j, k = t[i + 1].text, i + 2, closing(t, i + 2)
                for a, b in parts(t, j, k):
                    while t[a].text == "pub":
                        a += 1
                    if word == "struct":
                        self.fields.setdefault(name, {})[t[a].text] = self.type_at(a + 2, b)
                    else:
                        held = [self.type_at(c, d) for c, d in parts(t, a + 1, b)] if b > a else []
                        self.variants.setdefault(name, {})[t[a].text] = held
                i = k
            i += 1

    def type_at(self, a, b):
        return "".join(token.text for token in self.tokens[a:b + 1] if token.text not in ("&", "mut"))

    def function(self, i):
        t = self.tokens
        name, j = t[i + 1].text, i + 2
        while t[j].text != "(":
            j += 1
        k = closing(t, j)
        self.parameters[name] = [(t[a].text, self.type_at(a + 2, b)) for a, b in parts(t, j, k)]
        j = k + 1
        result = j + 1
        while t[j].text != "{":
            if t[j].text in ("requires", "ensures", "ghost") and t[j + 1].text == "{":
                self.results.setdefault(name, self.type_at(result, j - 1))
                j = closing(t, j + 1) + 1
            else:
                j = closing(t, j) + 1 if t[j].text == "[" else j + 1
        self.results.setdefault(name, self.type_at(result, j - 1))
        end = closing(t, j)
        self.functions.append((name, j, end))
        self.starts[name] = i
        return end


def without_functions(text):
    """The file without its functions: types and constants are left, so that definitions and laws can be checked alone."""
    source = Source(text)
    for name, _, end in reversed(source.functions):
        start = source.starts[name]
        while source.tokens[start - 1].text == "pub":
            start -= 1
        text = text[:source.tokens[start].start] + text[source.tokens[end].end:]
    return re.sub(r"^use (?:\w+::)+[a-z_]+;\n", "", text, flags=re.M)


class Maker:
    def __init__(self, source, declared):
        self.source, self.t, self.text, self.declared = source, source.tokens, source.text, declared
        self.found = []

    def span(self, a, b):
        return self.text[self.t[a].start:self.t[b].end]

    def add(self, kind, owner, edits, old, new, shape):
        """`shape`: whether the changed code is a walk of the same steps, so that the proof still fits it."""
        if old != new:
            self.found.append(dict(kind=kind, owner=owner, edits=sorted(edits), old=old, new=new, shape=shape))

    def token(self, kind, owner, i, new, shape=True):
        self.add(kind, owner, [(self.t[i].start, self.t[i].end, new)], self.t[i].text, new, shape)

    # ---- what stands left and right of an operator

    def operand_right(self, i):
        t, j = self.t, i
        while t[j].text in ("&", "!", "*", "mut"):
            j += 1
        if t[j].text in "([":
            j = closing(t, j)
        while True:
            if t[j + 1].text in ("(", "["):
                j = closing(t, j + 1)
            elif t[j + 1].text in (".", "::", "as"):
                j += 2
            else:
                return j

    def operand_left(self, i):
        """The first token of what ends at i."""
        t, j = self.t, i
        while True:
            if t[j].text in (")", "]"):
                depth = 0
                while True:
                    depth += {")": 1, "]": 1, "(": -1, "[": -1}.get(t[j].text, 0)
                    if depth == 0:
                        break
                    j -= 1
                if t[j - 1].kind == "name" or t[j - 1].text in (")", "]"):
                    j -= 1
                    continue
            if t[j - 1].text in (".", "::", "as"):
                j -= 2
                continue
            return j

    def is_operand_end(self, i):
        return self.t[i].kind in ("name", "number", "byte") and self.t[i].text not in ("return", "break", "if", "while", "let", "mut", "in", "match") \
            or self.t[i].text in (")", "]")

    # ---- the mutants of a span of tokens

    def numbers(self, owner, i):
        token = self.t[i]
        if token.kind == "number":
            digits = re.match(r"\d[\d_]*", token.text).group()
            value, suffix = int(digits.replace("_", "")), token.text[len(digits):]
            for other in (value + 1, value - 1):
                if other >= 0:
                    self.token("number", owner, i, f"{other}{suffix}")
        elif token.kind == "byte" and "\\" not in token.text:
            for other in (ord(token.text[2]) + 1, ord(token.text[2]) - 1):
                self.token("number", owner, i, f"b'{chr(other)}'")
        elif token.kind == "text" and len(token.text) > 3:
            letters = token.text[2:-1]
            self.token("number", owner, i, f'b"{chr(ord(letters[0]) + 1)}{letters[1:]}"')
        elif token.text in ("true", "false"):
            self.token("number", owner, i, "false" if token.text == "true" else "true")

    def operators(self, owner, i):
        t, token = self.t, self.t[i]
        if token.kind != "op" or not self.is_operand_end(i - 1):
            if token.text == "!" and t[i + 1].text != "=":
                self.token("negation", owner, i, "")
            return
        for new in COMPARE.get(token.text, []):
            # no number is below 0, so that these two say the same
            if (token.text, new) not in (("==", "<="), ("<=", "==")) or t[i + 1].text != "0":
                self.token("comparison", owner, i, new)
        if token.text in OPERATE:
            self.token("operator", owner, i, OPERATE[token.text], False)
        if token.text in ("-", "/", "%", "<<", ">>"):
            a, b = self.operand_left(i - 1), self.operand_right(i + 1)
            left, right = self.span(a, i - 1), self.span(i + 1, b)
            self.add("swapped", owner, [(t[a].start, t[i - 1].end, right), (t[i + 1].start, t[b].end, left)],
                     f"{left} {token.text} {right}", f"{right} {token.text} {left}", True)

    def swap_pairs(self, owner, spans, kinds, texts=None):
        """Each argument changes places with the next of its type."""
        for x in range(len(spans)):
            for y in range(x + 1, len(spans)):
                if kinds[x] is not None and kinds[x] == kinds[y]:
                    (a, b), (c, d) = spans[x], spans[y]
                    one, two = self.span(a, b), self.span(c, d)
                    self.add("swapped", owner, [(self.t[a].start, self.t[b].end, two), (self.t[c].start, self.t[d].end, one)],
                             f".. {one} .. {two} ..", f".. {two} .. {one} ..", True)
                    break

    def calls(self, owner, i):
        t = self.t
        if t[i].kind != "name" or t[i + 1].text != "(" or t[i - 1].text == "fn":
            return
        spans = parts(t, i + 1, closing(t, i + 1))
        crate = t[i - 2].text if t[i - 1].text == "::" else None
        kinds = self.declared.parameters(crate, t[i].text) or self.declared.held(crate, t[i].text)
        if kinds and len(kinds) == len(spans):
            self.swap_pairs(owner, spans, kinds)

    def arrays(self, owner, i):
        t = self.t
        if t[i].text == "[" and not self.is_operand_end(i - 1) and t[i - 1].text != ":":
            j = closing(t, i)
            spans = parts(t, i, j)
            if len(spans) > 1:
                self.swap_pairs(owner, spans, ["element"] * len(spans))

    def records(self, owner, i):
        t = self.t
        fields = self.declared.fields(t[i].text) if t[i].kind == "name" and t[i + 1].text == "{" else None
        if not fields:
            return
        entries = []
        for a, b in parts(t, i + 1, closing(t, i + 1)):
            name = t[a].text
            if name in fields:
                value = self.span(a + 2, b) if b > a else name
                entries.append((name, fields[name], value, t[a].start, t[b].end))
        for x in range(len(entries)):
            for y in range(x + 1, len(entries)):
                one, two = entries[x], entries[y]
                if one[1] == two[1]:
                    self.add("swapped", owner, [(one[3], one[4], f"{one[0]}: {two[2]}"), (two[3], two[4], f"{two[0]}: {one[2]}")],
                             f"{one[0]}: {one[2]}, {two[0]}: {two[2]}", f"{one[0]}: {two[2]}, {two[0]}: {one[2]}", True)
                    break

    def names(self, owner, i):
        """A constant or a variant is replaced by the next of its kind."""
        t = self.t
        if t[i].kind != "name" or t[i + 1].text == "::":
            return
        crate = t[i - 2].text if t[i - 1].text == "::" else None
        other = self.declared.other_constant(crate, t[i].text) or self.declared.other_variant(crate, t[i].text)
        if other and (t[i - 1].text == "::" or t[i].text.isupper()):
            self.token("name", owner, i, other)

    def others(self, owner, start, end):
        """A local is replaced by the one of its type that was named last before it: the same steps with the wrong value."""
        t, known = self.t, list(self.declared.own(owner))
        i = start
        while i < end:
            if t[i].text == "let" and t[i + 1].kind == "name" or t[i].text == "let" and t[i + 1].text == "mut":
                j = i + 2 if t[i + 1].text == "mut" else i + 1
                if t[j + 1].text in ("=", ":"):
                    name = t[j].text
                    k = j
                    while t[k].text != "=":
                        k += 1
                    kind = self.type_of(k + 1, dict(known))
                    stop = k
                    while stop < end and t[stop].text != ";":
                        stop = closing(t, stop) + 1 if t[stop].text in ("(", "[", "{") else stop + 1
                    self.uses(owner, k + 1, stop, known)
                    known.append((name, kind))
                    # what a loop or a block holds is walked through, not over
                    i = stop if t[k + 1].text != "loop" else k + 2
                    continue
            self.uses(owner, i, i + 1, known)
            i += 1

    def uses(self, owner, a, b, known):
        t, kinds = self.t, dict(known)
        for i in range(a, b):
            if t[i].kind == "name" and t[i].text in kinds and kinds[t[i].text] and t[i - 1].text not in (".", "::") \
                    and t[i + 1].text not in (":", "::", "(", "=", "+=", "-=", ".") and not kinds[t[i].text].startswith("["):
                rest = [name for name, kind in known if kind == kinds[t[i].text] and name != t[i].text]
                if not rest:
                    continue
                # in a record's literal a field's name alone stands for the local of that name
                alone = t[i - 1].text in ("{", ",") and t[i + 1].text in (",", "}") and self.in_literal(i)
                self.token("local", owner, i, f"{t[i].text}: {rest[-1]}" if alone else rest[-1])

    def in_literal(self, i):
        t, depth, j = self.t, 0, i
        while j > 0:
            j -= 1
            if t[j].text in (")", "]", "}"):
                depth += 1
            elif t[j].text in ("(", "[", "{"):
                if depth == 0:
                    return t[j].text == "{" and t[j - 1].kind == "name" and self.declared.fields(t[j - 1].text) is not None
                depth -= 1
        return False

    def type_of(self, i, kinds):
        """The type of the expression that starts at i, where it is plain."""
        t = self.t
        number = re.fullmatch(r"\d[\d_]*([ui](?:8|16|32|64|size))", t[i].text)
        if number:
            return number.group(1)
        j, crate = i, None
        while t[j + 1].text == "::":
            crate = t[j].text
            j += 2
        if t[j + 1].text == "(" and t[closing(self.t, j + 1) + 1].text == ";":
            return self.declared.result(crate, t[j].text)
        if t[j + 1].text == ";":
            return kinds.get(t[j].text) or self.declared.constant(crate, t[j].text)
        if t[j + 1].text == "." and t[j + 3].text == ";":
            fields = self.declared.fields(kinds.get(t[j].text))
            return fields.get(t[j + 2].text) if fields else None
        if t[j + 1].text == "[" and t[closing(self.t, j + 1) + 1].text == ";":
            held = re.fullmatch(r"\[(\w+)\]", kinds.get(t[j].text) or "")
            return held.group(1) if held else None
        return None

    def statements(self, owner, start, end):
        """Statements are dropped; beside that, one that keeps the steps and has no effect stands in for each."""
        t, i = self.t, start + 1
        while i < end:
            first = i
            if t[i].text in ("{", "}", ";", "=>", ",", "else", "loop"):
                i += 1
                continue
            if t[i].text in ("let", "return", "break", "match", "while", "for"):
                while t[i].text not in (";", "{"):
                    i = closing(t, i) + 1 if t[i].text in ("(", "[") else i + 1
                if t[first].text == "return" or t[first].text == "break":
                    # the whole of a literal that is handed back
                    while t[i].text != ";":
                        i = closing(t, i) + 1
                elif t[i].text == "{" and t[first].text == "let" and t[i - 1].text not in ("else", "loop"):
                    while t[i].text != ";":
                        i = closing(t, i) + 1 if t[i].text in ("(", "[", "{") else i + 1
                i += 1
                continue
            if t[i].text == "if":
                j = i
                while t[j].text != "{":
                    j = closing(t, j) + 1 if t[j].text in ("(", "[") else j + 1
                k = closing(t, j)
                if t[k + 1].text != "else":
                    self.add("dropped", owner, [(t[i].start, t[k].end, "")], f"if {self.span(i + 1, j - 1)} {{ .. }}", "", False)
                self.never(owner, i, j)
                i = j + 1
                continue
            j, equals = i, None
            while j < end and t[j].text not in (";", "}", "{", ",", "=>"):
                if t[j].text in ("=", "+=", "-="):
                    equals = j
                j = closing(t, j) + 1 if t[j].text in ("(", "[") else j + 1
            if t[j].text == ";":
                self.add("dropped", owner, [(t[first].start, t[j].end, "")], self.span(first, j), "", False)
                if equals:
                    left = self.span(first, equals - 1)
                    if t[equals].text == "=":
                        self.add("idle", owner, [(t[equals + 1].start, t[j - 1].end, left)], self.span(first, j), f"{left} = {left};", False)
                    elif t[j - 1].text != "1" and t[j - 1].text != "0":
                        self.add("idle", owner, [(t[equals + 1].start, t[j - 1].end, "0")], self.span(first, j), f"{left} {t[equals].text} 0;", True)
            elif t[j].text == "{" and t[j - 1].kind == "name" and self.declared.fields(t[j - 1].text):
                j = closing(t, j)
            i = j + 1 if j > first else first + 1

    def never(self, owner, i, j):
        """The test of an `if` that can never hold."""
        t = self.t
        for k in range(i + 1, j):
            if t[k].kind == "op" and t[k].text in COMPARE:
                left, right = self.span(i + 1, k - 1), self.span(k + 1, j - 1)
                new = {"==": f"{left} != {left}", "!=": f"{left} != {left}"}.get(t[k].text, f"{left} < {left}")
                self.add("never", owner, [(t[i + 1].start, t[j - 1].end, new)], f"if {left} {t[k].text} {right}", f"if {new}", True)
                return
        if t[i + 1].text != "!":
            test = self.span(i + 1, j - 1)
            self.add("negation", owner, [(t[i + 1].start, t[j - 1].end, "!" + test)], f"if {test}", f"if !{test}", True)

    def run(self):
        for name, kind, a, b in self.source.constants:
            for i in range(a, b):
                self.numbers("const " + name, i)
                self.operators("const " + name, i)
        for name, a, b in self.source.functions:
            for i in range(a + 1, b):
                self.numbers(name, i)
                self.operators(name, i)
                self.calls(name, i)
                self.arrays(name, i)
                self.records(name, i)
                self.names(name, i)
            self.statements(name, a, b)
            self.others(name, a + 1, b)
        return self.found


class Declared:
    """What the crate and those below it declare, by crate and name."""

    def __init__(self, crate, sources):
        self.crate, self.sources = crate, sources

    def each(self, crate):
        return [self.sources[crate]] if crate in self.sources else [self.sources[self.crate]] + [s for c, s in self.sources.items() if c != self.crate]

    def parameters(self, crate, name):
        for source in self.each(crate):
            if name in source.parameters:
                return [kind for _, kind in source.parameters[name]]

    def own(self, name):
        return self.sources[self.crate].parameters.get(name, [])

    def result(self, crate, name):
        for source in self.each(crate):
            if name in source.results:
                return source.results[name].split("::")[-1]

    def held(self, enum, name):
        for source in self.each(None):
            if name in source.variants.get(enum, {}):
                return source.variants[enum][name]

    def fields(self, name):
        if name is None:
            return None
        for source in self.each(None):
            if name.split("::")[-1] in source.fields:
                return {field: kind.split("::")[-1] for field, kind in source.fields[name.split("::")[-1]].items()}

    def constant(self, crate, name):
        for source in self.each(crate):
            for constant, kind, _, _ in source.constants:
                if constant == name:
                    return kind

    def other_constant(self, crate, name):
        for source in self.each(crate):
            kind = next((k for n, k, _, _ in source.constants if n == name), None)
            same = [n for n, k, _, _ in source.constants if k == kind]
            if kind and len(same) > 1:
                return same[(same.index(name) + 1) % len(same)]

    def other_variant(self, enum, name):
        for source in self.each(None):
            variants = source.variants.get(enum, {})
            same = [n for n, held in variants.items() if name in variants and held == variants[name]]
            if len(same) > 1:
                return same[(same.index(name) + 1) % len(same)]


def relations(source):
    """For each function those of the crate that it reaches by calls."""
    t, direct = source.tokens, {}
    names = {name for name, _, _ in source.functions}
    for name, a, b in source.functions:
        direct[name] = {t[i].text for i in range(a, b) if t[i].text in names and t[i + 1].text == "(" and t[i - 1].text != "::"}
    reached = {}
    for name in direct:
        seen, todo = set(), [name]
        while todo:
            for other in direct[todo.pop()] - seen:
                seen.add(other)
                todo.append(other)
        reached[name] = seen
    return reached
