"""The mutants of a crate's specs/: definitions that contracts, claims or promises cite. A definition is what is declared by `record`, `data`, `abbrev` or
`unfoldable`; whatever else is declared is a law or its proof, and is left as it is."""
import re

TOKEN = re.compile(r"(?P<skip>\s+|--[^\n]*)|(?P<op>[(){};,]|λ|\.(?=\s)|:(?=\s)|=(?=\s))|(?P<word>[^\s(){};,]+)")
COMPARE = {"<": ["≤"], "≤": ["<"], "≢": ["≡"]}
OPERATE = {"+": ["-"], "-": ["+"], "*": ["+"], "/": ["%"], "%": ["/"], "^": ["*"]}
LOOSE = {"→", "×", "⊎", "≡", "≢", "<", "≤", "+", "-", "*", "/", "%", "^", "∷", "++", "=", ":", "in", "let", "λ", ".", "where"}


class Token:
    def __init__(self, text, start, end):
        self.text, self.start, self.end = text, start, end


def tokens_of(text, start, end):
    found, at = [], start
    while at < end:
        match = TOKEN.match(text, at)
        if match.lastgroup != "skip" and match.start() < end:
            found.append(Token(match.group(), match.start(), match.end()))
        at = match.end()
    return found


def declarations(text):
    """(name, kind, start, end) of each definition: from its first line to before the next line that starts in the first column and is no clause of it."""
    lines, at, starts = text.split("\n"), 0, []
    for line in lines:
        starts.append(at)
        at += len(line) + 1
    found, i = [], 0
    while i < len(lines):
        match = re.match(r"(?:(?:pub|abbrev|unfoldable) )*(?:(record|data) )?([^\s:(){}]+)", lines[i])
        is_one = match and re.match(r"(?:pub )?(?:record|data|abbrev|unfoldable) ", lines[i])
        if not is_one:
            i += 1
            continue
        kind, name = match.group(1) or "function", match.group(2)
        j = i + 1
        while j < len(lines) and (lines[j].startswith((" ", "\t")) or kind == "function" and re.match(re.escape(name) + r"[ =]", lines[j])
                                  or lines[j].startswith("unfolding ")):
            j += 1
        found.append((name, kind, starts[i], starts[j - 1] + len(lines[j - 1]) if j > 0 else len(text)))
        i = j
    return found


def words_in(text):
    return set(re.findall(r"[^\s(){};,.⟦⟧⌜⌝\"`]+", re.sub(r"--[^\n]*", "", text)))


def cited(root):
    """The names of the definitions that a contract cites, or the statement of a promise, directly or by way of other definitions."""
    bodies, roots = {}, set()
    for path in sorted(root.glob("crates/*/specs/*.antt")):
        text = path.read_text()
        for name, _, start, end in declarations(text):
            bodies.setdefault(name, set()).update(words_in(text[start:end]))
    for path in sorted(root.glob("crates/*/src/lib.rt")):
        for clause in re.findall(r"⌜(.*?)⌝", path.read_text(), re.S):
            roots |= words_in(clause)
    for file, name in re.findall(r"`([^`#]+\.antt)#([^`]+)`", (root / "docs/PROMISES.md").read_text()):
        # a file without a path is one of the laws of promises
        text = (root / (file if "/" in file else "crates/promises/proofs/laws/" + file)).read_text()
        # the statement: from the name to its first clause
        match = re.search(r"^ *(?:pub )?" + re.escape(name) + r" :(.*?)^ *(?:unfolding |" + re.escape(name) + r"[ =])", text, re.S | re.M)
        roots |= words_in(match.group(1)) if match else {name}
    seen, todo = set(), [name for name in roots if name in bodies]
    while todo:
        name = todo.pop()
        if name not in seen:
            seen.add(name)
            todo += [other for other in bodies[name] if other in bodies and other not in seen]
    return seen


def split(text):
    """What the arrows of a type separate, at its own depth."""
    depth, parts, at = 0, [], 0
    for i, c in enumerate(text):
        depth += {"(": 1, "{": 1, ")": -1, "}": -1}.get(c, 0)
        if c == "→" and depth == 0:
            parts.append(text[at:i].strip())
            at = i + 1
    return parts + [text[at:].strip()]


def binders(text):
    """The types of the explicit binders `(a b : A) (c : B)`."""
    found = []
    for names, kind in re.findall(r"\(([^():{}]+) : ((?:[^()]|\([^()]*\))*)\)", text):
        found += [kind.strip()] * len(names.split())
    return found


def arguments(root):
    """For each name that a definition declares, the types of its arguments, of which a name may have several."""
    found = {}
    for path in sorted(root.glob("crates/*/specs/*.antt")):
        text = re.sub(r"--[^\n]*", "", path.read_text())
        for name, kind, start, end in declarations(text):
            body = text[start:end]
            head = body.split("\n" + name + " ")[0] if kind == "function" else body.split(" where")[0]
            if kind == "function":
                signature = re.sub(r"\s+", " ", head.partition(" : ")[2])
                found.setdefault(name, []).append(split(signature)[:-1])
            else:
                own, _, rest = head.partition(") :") if ") :" in head else (head, "", "")
                rest = re.sub(r"\s+", " ", rest or head.rpartition(" : ")[2])
                found.setdefault(name, []).append(binders(own + ")") + split(rest)[:-1])
            if kind == "data":
                for case in re.finditer(r"^  (\S+) : ([^\n]*(?:\n {3,}[^\n]*)*)", body, re.M):
                    each = [p for p in split(re.sub(r"\s+", " ", case.group(2)))[:-1] if not p.startswith("{")]
                    found.setdefault(case.group(1), []).append(each)
    return found


def closing(tokens, i):
    depth = 0
    for j in range(i, len(tokens)):
        depth += {"(": 1, "{": 1, ")": -1, "}": -1}.get(tokens[j].text, 0)
        if depth == 0:
            return j
    return None


class Maker:
    def __init__(self, text, file, types):
        self.text, self.file, self.types, self.found = text, file, types, []

    def add(self, kind, owner, edits, old, new, field=None):
        if old != new:
            self.found.append(dict(kind=kind, owner=owner, field=field, edits=sorted(edits), old=old, new=new, shape=" dropped" not in kind, file=self.file, declares=[owner]))

    def atoms(self, tokens, i):
        """The head at i and its arguments, each from its first to its last token."""
        found, j = [(i, i)], i + 1
        while j < len(tokens) and tokens[j].text not in LOOSE and tokens[j].text not in (")", "}", ";", ","):
            k = closing(tokens, j) if tokens[j].text in "({" else j
            if k is None:
                break
            # `.field` and what it is a field of
            if tokens[j].text.startswith(".") and len(tokens[j].text) > 1:
                found[-1] = (found[-1][0], k)
            else:
                found.append((j, k))
            j = k + 1
        return found

    def term(self, owner, tokens, types=False):
        for i, token in enumerate(tokens):
            t = token.text
            for new in COMPARE.get(t, []):
                self.add("comparison", owner, [(token.start, token.end, new)], t, new)
            if not types:
                for new in OPERATE.get(t, []):
                    self.add("operator", owner, [(token.start, token.end, new)], t, new)
            if re.fullmatch(r"\d+", t) and not (tokens[i - 1].text == "Type" if i else False):
                for new in (int(t) + 1, int(t) - 1):
                    if new >= 0:
                        self.add("number", owner, [(token.start, token.end, str(new))], t, str(new))
            if t == "suc" and i and tokens[i - 1].text == "(":
                close = closing(tokens, i - 1)
                inner = self.text[tokens[i + 1].start:tokens[close - 1].end]
                self.add("suc", owner, [(tokens[i - 1].start, tokens[close].end, inner)], f"(suc {inner})", inner)
            if t in ("true", "false"):
                self.add("number", owner, [(token.start, token.end, "false" if t == "true" else "true")], t, "false" if t == "true" else "true")
            if t in ("∷", "++", "-", "/", "%", "<", "≤") and 0 < i < len(tokens) - 1:
                self.swap_sides(owner, tokens, i)
            starts = i == 0 or tokens[i - 1].text in LOOSE or tokens[i - 1].text in ("(", "{", ",")
            if starts and t not in LOOSE and re.match(r"[^\W\d]", t):
                atoms = self.atoms(tokens, i)
                kinds = [each for each in self.types.get(t, []) if len(each) >= len(atoms) - 1]
                for x in range(1, len(atoms) - 1):
                    if not any(each[x - 1] == each[x] for each in kinds):
                        continue
                    (a, b), (c, d) = atoms[x], atoms[x + 1]
                    one, two = self.text[tokens[a].start:tokens[b].end], self.text[tokens[c].start:tokens[d].end]
                    self.add("swapped", owner, [(tokens[a].start, tokens[b].end, two), (tokens[c].start, tokens[d].end, one)], f"{t} .. {one} {two}", f"{t} .. {two} {one}")

    def swap_sides(self, owner, tokens, i):
        t = tokens[i].text
        a = i - 1
        while a > 0 and tokens[a - 1].text not in LOOSE and tokens[a - 1].text not in ("(", "{", ",", ";"):
            if tokens[a].text in (")", "}"):
                depth = 1
                while depth and a > 0:
                    a -= 1
                    depth += {")": 1, "}": 1, "(": -1, "{": -1}.get(tokens[a].text, 0)
            else:
                a -= 1
        if tokens[a].text in (")", "}"):
            depth = 1
            while depth and a > 0:
                a -= 1
                depth += {")": 1, "}": 1, "(": -1, "{": -1}.get(tokens[a].text, 0)
        b = self.atoms(tokens, i + 1)[-1][1] if tokens[i + 1].text not in ("(", "{") else None
        if b is None:
            b = closing(tokens, i + 1)
            if b is None:
                return
        # an element and a list cannot change places, two elements can
        if t == "∷" and (b + 1 >= len(tokens) or tokens[b + 1].text != "∷"):
            return
        left, right = self.text[tokens[a].start:tokens[i - 1].end], self.text[tokens[i + 1].start:tokens[b].end]
        self.add("swapped", owner, [(tokens[a].start, tokens[i - 1].end, right), (tokens[i + 1].start, tokens[b].end, left)],
                 f"{left} {t} {right}", f"{right} {t} {left}")

    def arrows(self, owner, tokens):
        """A hypothesis of a field or a constructor is dropped; of a product, one part."""
        depth, starts, cuts = 0, [0], []
        for i, token in enumerate(tokens):
            depth += {"(": 1, "{": 1, ")": -1, "}": -1}.get(token.text, 0)
            if depth == 0 and token.text == "→":
                cuts.append(i)
                starts.append(i + 1)
        for start, cut in zip(starts, cuts):
            a, b = tokens[start], tokens[cut - 1]
            body = self.text[a.start:b.end]
            # a binder is no hypothesis
            if tokens[start].text in ("(", "{") and re.match(r"[({][^():{}]* : ", body):
                continue
            if re.fullmatch(r"[\w′ℕ]+|\(?ℕ → \w+\)?", body):
                continue
            self.add("hypothesis dropped", owner, [(a.start, tokens[cut + 1].start, "")], f"{body} →", "")

    def products(self, owner, tokens):
        """One part of a product is dropped."""
        for i, token in enumerate(tokens):
            if token.text != "×":
                continue
            # the part before it, back to what it stands behind
            a, depth = i - 1, 0
            while a >= 0:
                depth += {")": 1, "}": 1, "(": -1, "{": -1}.get(tokens[a].text, 0)
                if depth < 0 or depth == 0 and tokens[a].text in ("×", "→", "=", ":"):
                    break
                a -= 1
            first = tokens[a + 1]
            body = self.text[first.start:tokens[i - 1].end]
            if not re.match(r"\([^():{}]* : ", body):
                self.add("conjunct dropped", owner, [(first.start, tokens[i + 1].start, "")], f"{body} ×", "")

    def declaration(self, name, kind, start, end):
        text = self.text
        if kind == "function":
            # the clauses, behind the signature
            for match in re.finditer(r"^" + re.escape(name) + r"(?= |$)([^\n]*?) = ?", text[start:end], re.M):
                a = start + match.end()
                following = re.search(r"\n(?=\S)", text[a:end])
                b = a + following.start() if following else end
                tokens = tokens_of(text, a, b)
                self.term(name, tokens)
                self.products(name, tokens)
            return
        header = text.index("\n", start)
        lines = [(m.start() + header + 1, m.end() + header + 1) for m in re.finditer(r"^  (?! )[^\n]*(?:\n {3,}[^\n]*)*", text[header + 1:end], re.M)]
        for a, b in lines:
            if text[a:b].lstrip().startswith("--"):
                continue
            colon = text.index(" : ", a) + 3
            tokens = tokens_of(text, colon, b)
            field = text[a:colon - 3].replace("pub", "").strip()
            self.term(name, tokens, types=False)
            self.products(name, tokens)
            self.arrows(name, tokens)
            plain = re.sub(r"\s+", " ", text[colon:b])
            self.add("conjunct dropped" if kind == "record" else "case dropped", name, [(a, min(b + 1, end), "")], f"{field} : {plain}", "", field if kind == "record" else None)


def mutants(root, crate):
    names, types, found = cited(root), arguments(root), []
    for path in sorted(root.glob(f"crates/{crate}/specs/*.antt")):
        text = path.read_text()
        maker = Maker(text, str(path.relative_to(root)), types)
        for name, kind, start, end in declarations(text):
            if name in names:
                maker.declaration(name, kind, start, end)
        found += sorted(maker.found, key=lambda m: m["edits"][0][0])
    return found
