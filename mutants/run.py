"""Applies the mutants of a crate, one place each, to a copy of the repository, and writes what the check says of each to target/mutants/."""
import argparse, collections, os, pathlib, re, shutil, signal, subprocess, sys, tempfile, time
import source, specs

ROOT = pathlib.Path(__file__).resolve().parent.parent
# the crates that a survivor has to pass too: every claim, law and promise stands in one of these or below
ABOVE = ["promises", "any_call", "answering", "bench", "feed"]
# those of them that have laws
LAWS = ["promises", "answering", "bench", "feed"]
LIMIT = 900


def crates_below():
    found = {}
    for line in (ROOT / "crates.txt").read_text().splitlines():
        name, colon, rest = line.partition("#")[0].partition(":")
        if colon:
            found[name.strip()] = rest.split()
    return found


def place(text, at):
    return text.count("\n", 0, at) + 1, at - (text.rfind("\n", 0, at) + 1) + 1


def mutants_of(crate):
    """All mutants of the crate in a fixed order, numbered from 1: those of src/ first, then those of specs/."""
    sources = {path.parent.parent.name: source.Source(path.read_text()) for path in sorted(ROOT.glob("crates/*/src/lib.rt"))}
    found = []
    own = f"crates/{crate}/src/lib.rt"
    if crate in sources:
        for m in source.Maker(sources[crate], source.Declared(crate, sources)).run():
            found.append(dict(m, file=own, part="src"))
    for m in specs.mutants(ROOT, crate):
        found.append(dict(m, part="specs"))
    texts = {}
    kept, seen = [], set()
    for m in found:
        text = texts.setdefault(m["file"], (ROOT / m["file"]).read_text())
        changed = text
        for start, end, new in reversed(m["edits"]):
            changed = changed[:start] + new + changed[end:]
        m["line"], m["column"] = place(text, m["edits"][0][0])
        if changed != text and (m["file"], changed) not in seen:
            seen.add((m["file"], changed))
            m["n"] = len(kept) + 1
            kept.append(m)
    return kept


def plain(text):
    return re.sub(r"\s+", " ", text).strip()


def item_at(text, at):
    """The function or declaration that stands there. A function of `src/` ends at a brace at the left edge, all else at a blank line."""
    starts = [m.start() for m in re.finditer(r"^(?:pub )?fn ", text, re.M) if m.start() <= at]
    if starts and (end := text.find("\n}\n", starts[-1])) >= at:
        return text[starts[-1]:end + 2]
    return text[text.rfind("\n\n", 0, at) + 1:(text + "\n\n").find("\n\n", at)]


def moved_since(commit, mutants):
    """Those in an item that the commit does not have word for word, comments aside."""
    def bare(text):
        return plain(re.sub(r"^\s*(?://|--).*$", "", text, flags=re.M))

    def then(file):
        shown = subprocess.run(["git", "show", f"{commit}:{file}"], cwd=ROOT, capture_output=True, text=True)
        return bare(shown.stdout) if shown.returncode == 0 else ""

    files = {m["file"] for m in mutants}
    now, old = {f: (ROOT / f).read_text() for f in files}, {f: then(f) for f in files}
    return [m for m in mutants if bare(item_at(now[m["file"]], m["edits"][0][0])) not in old[m["file"]]]


def shown(m):
    return f'{m["n"]}\t{m["file"]}:{m["line"]}:{m["column"]}\t{m["kind"]}\t{m["owner"]}\t{plain(m["old"])} -> {plain(m["new"])}'


class Copy:
    """A copy of the repository. One of the laws alone has no function, so that a check of it takes seconds: there only definitions and laws can fail."""

    def __init__(self, room, laws=False):
        self.path, self.laws, self.warm = room / ("laws" if laws else "whole"), laws, {}
        if not self.path.exists():
            shutil.copytree(ROOT, self.path, symlinks=True, ignore=shutil.ignore_patterns(".git", "inc", "mutants", "shams"))
        for path in [*ROOT.glob("crates/*/src/*.rt"), *ROOT.glob("crates/*/specs/*.antt")]:
            # a run that was stopped may have left a mutant in the copy
            other, text = self.path / path.relative_to(ROOT), self.text(path)
            if other.read_text() != text:
                other.write_text(text)
        if laws:
            for folder in self.path.glob("crates/*/proofs/*/"):
                if folder.name != "laws":
                    shutil.rmtree(folder)
            status, out = self.run("check", *LAWS)
            if status != 0:
                sys.exit(f"mutants/try: the laws alone are not proved\n{out[-2000:]}")

    def text(self, path):
        """The file of the repository, as this copy has it."""
        text = path.read_text()
        return source.without_functions(text) if self.laws and path.suffix == ".rt" and path.name == "lib.rt" else text

    def run(self, *words, path=None):
        """An rt command: its exit status and what it printed; None where it took too long."""
        child = subprocess.Popen(["nice", "-n", "10", "rt", *words], cwd=path or self.path, stdout=subprocess.PIPE, stderr=subprocess.STDOUT,
                                 text=True, errors="replace", env=dict(os.environ, RT_CUT="0", RT_JOBS="1"), start_new_session=True)
        try:
            out, _ = child.communicate(timeout=LIMIT)
            return child.returncode, out
        except subprocess.TimeoutExpired:
            os.killpg(child.pid, signal.SIGKILL)
            child.communicate()
            return None, ""

    def begin(self, crate):
        """The crate as it stands is proved over its incremental folder, whose files are put back after each mutant."""
        (self.path / "target/mutants").mkdir(parents=True, exist_ok=True)
        status, out = self.run("dev", crate)
        if status != 0:
            sys.exit(f"mutants/try: {crate} itself is not proved\n{out[-2000:]}")
        folder, saved = self.path / "target/inc" / crate, self.path / "target/mutants/inc" / crate
        if saved.exists():
            shutil.rmtree(saved)
        shutil.copytree(folder, saved)
        self.warm[crate] = {p.relative_to(folder): p.stat().st_mtime_ns for p in folder.rglob("*") if p.is_file()}

    def restore(self, crate):
        folder, saved, known = self.path / "target/inc" / crate, self.path / "target/mutants/inc" / crate, self.warm[crate]
        present = set()
        for p in list(folder.rglob("*")):
            if p.is_file():
                name = p.relative_to(folder)
                present.add(name)
                if name not in known:
                    p.unlink()
                elif p.stat().st_mtime_ns != known[name]:
                    shutil.copy2(saved / name, p)
                    known[name] = p.stat().st_mtime_ns
        for name in set(known) - present:
            (folder / name).parent.mkdir(parents=True, exist_ok=True)
            shutil.copy2(saved / name, folder / name)
            known[name] = (folder / name).stat().st_mtime_ns

    def apply(self, some, path=None):
        edits = collections.defaultdict(list)
        for m in some:
            edits[m["file"]] += m["edits"]
        for file, each in edits.items():
            text = self.text(ROOT / file) if file.endswith(".antt") else (ROOT / file).read_text()
            for start, end, new in sorted(each, reverse=True):
                text = text[:start] + new + text[end:]
            ((path or self.path) / file).write_text(text)
        return edits

    def undo(self, edits):
        for file in edits:
            (self.path / file).write_text(self.text(ROOT / file))


def short(text):
    text = plain(text)
    text = re.sub(r"Rattle·\w+(·\w+)?\.(?:\w+\.)*", "", text)
    text = re.sub(r"Prim\.Native\.Nat\.|mathlib\.Core\.\w+\.", "", text)
    return re.sub(r"( \.before)+", " ..", text)[:300]


def kind_of(m, message):
    """Why a refused mutant is refused. `goal`: a goal does not follow from what stands there. `evidence`: the fact that the proof cites is another one now.
    `shape`: the proof does not fit the form of what was changed, which says nothing of the contract. `used`: a law takes the dropped part (see `mend`)."""
    if m.get("field") and re.search(r"^used by |record `[^`]*` has no field `" + re.escape(m["field"]) + "`", message):
        return "used"
    if re.search(r"that can be named from here|no field|is not a field|not in scope|has no component|nothing named|cannot be determined|undetermined"
                 r"|this λ has|this tuple has|too many arguments", message):
        return "shape"
    if re.search(r"`omega`|`search`|`cc`|`simp`|does not follow|the goal fails|no proof", message):
        return "goal"
    return "evidence" if m["shape"] else "shape"


def errors_in(out):
    """(file, declaration, message, line, column) of each error."""
    found = []
    for line in out.split("\n"):
        match = re.match(r".*?(crates/[^ :]+|\S+\.antt|\S+\.rt):(\d+):(\d+): error(?:\[[^\]]*\])?: (.*)", line)
        if match:
            declared = re.match(r"`([^`]+)`: (.*)", match.group(4))
            name, message = declared.groups() if declared else ("", match.group(4))
            found.append((match.group(1), name, message, int(match.group(2)), int(match.group(3))))
    return found


def said(m, crate, out):
    """What a check of the mutant's function says: proved, or why not."""
    name = m["owner"]
    line = next((l for l in out.split("\n") if l.startswith(f"fn {crate}::{name}: ")), "")
    if line.endswith(": proved"):
        return "proved", ""
    own = [e for e in errors_in(out) if f"/proofs/{name}/" in e[0] or f"proofs.{name}." in e[0]]
    first = [e for e in own if "was not admitted" not in e[2]] or own
    if first:
        return "refused", f"{first[0][1]}: {first[0][2]}"
    return "refused", line.partition(": ")[2] or "the check says nothing of it"


def settle(copy, laws, crate, passed, book):
    """Mutants that passed alone: is each another program at all, and does it pass the check from nothing, and every crate above?"""
    base = copy.run("mir", crate)
    for m in passed:
        began, steps = time.time(), []
        if m["part"] == "src" and not m["owner"].startswith("const "):
            edits = copy.apply([m])
            changed = copy.run("mir", crate)
            copy.undo(edits)
            if base == changed:
                book.write(m, "same", "the compiler makes the same code of it", time.time() - began)
                continue
        if m["part"] == "src" and not m["owner"].startswith("const "):
            steps = [(copy, [crate])]
        else:
            steps = [(laws(), [crate] + LAWS)] if m["part"] == "specs" else []
            steps.append((copy, [crate] + ABOVE))
        verdict, why = "SURVIVED", ""
        for base_copy, wanted in steps:
            with tempfile.TemporaryDirectory(prefix="mutant") as room:
                other = pathlib.Path(room) / "repository"
                shutil.copytree(base_copy.path, other, symlinks=True, ignore=shutil.ignore_patterns("inc", "mutants", ".git"))
                base_copy.apply([m], path=other)
                status, out = copy.run("check", *wanted, path=other)
            found = [e for e in errors_in(out) if "was not admitted" not in e[2]]
            if status == 0:
                why = "rt check " + " ".join(wanted)
                continue
            lines = [l for l in out.split("\n") if l.startswith("fn ") and not l.endswith(": proved")]
            verdict = "no verdict" if status is None or not found and not lines else "refused"
            why = f"{found[0][0]}#{found[0][1]}: {found[0][2]}" if found else lines[0] if lines else plain(out[-300:])
            break
        book.write(m, verdict, why, time.time() - began)


class Book:
    def __init__(self, crate):
        folder = ROOT / "target/mutants"
        folder.mkdir(parents=True, exist_ok=True)
        self.path = folder / f"{crate}.tsv"
        self.done = {}
        if self.path.exists():
            for line in self.path.read_text().splitlines():
                cells = line.split("\t")
                self.done["\t".join(cells[1:5])] = cells

    def write(self, m, verdict, why, seconds):
        kind = ""
        if verdict == "refused":
            kind = kind_of(m, why)
        cells = shown(m).split("\t") + [verdict, kind, f"{seconds:.1f}", short(why)]
        with open(self.path, "a") as f:
            f.write("\t".join(cells) + "\n")
        print("\t".join(cells)[:260], flush=True)

    def verdict(self, m):
        """What was written of it last."""
        cells = self.done.get(shown(m).partition("\t")[2])
        return cells[5] if cells else None

    def why(self, m):
        return self.done[shown(m).partition("\t")[2]][8]

    def has(self, m):
        return self.verdict(m) is not None


def front_end_refused(out):
    return not any(l.startswith(("fn ", "struct ", "enum ", "logic=")) for l in out.split("\n"))


def run_source(copy, crate, todo, book):
    """Mutants of functions that do not reach one another are tried in one check, since each function has a verdict of its own."""
    reached = source.relations(source.Source((ROOT / f"crates/{crate}/src/lib.rt").read_text()))
    todo = list(todo)
    while todo:
        batch, left = [], collections.Counter(m["owner"] for m in todo)
        if todo[0]["owner"].startswith("const "):
            batch = todo[:1]
        else:
            # those of which most are left go first
            for m in sorted(todo, key=lambda m: -left[m["owner"]]):
                owner = m["owner"]
                if not owner.startswith("const ") and all(
                        owner != b["owner"] and owner not in reached[b["owner"]] and b["owner"] not in reached[owner] for b in batch):
                    batch.append(m)
        for m in batch:
            todo.remove(m)
        began = time.time()
        edits = copy.apply(batch)
        status, out = copy.run("dev", crate)
        if status != 0 and front_end_refused(out) and status is not None:
            programs = []
            copy.undo(edits)
            for m in batch:
                edits = copy.apply([m])
                code, text = (status, out) if len(batch) == 1 else copy.run("mir", crate)
                copy.undo(edits)
                if code != 0:
                    found = re.search(r"error.*", text)
                    book.write(m, "not a program", found.group() if found else plain(text[-200:]), 0)
                else:
                    programs.append(m)
            if len(programs) == len(batch):
                sys.exit(f"mutants/try: no verdict on {shown(batch[0])}\n{out[-3000:]}")
            todo = programs + todo
            copy.restore(crate)
            continue
        copy.undo(edits)
        copy.restore(crate)
        seconds = (time.time() - began) / len(batch)
        for m in batch:
            if status is None:
                book.write(m, "no verdict", "the time was up", seconds)
                continue
            if m["owner"].startswith("const "):
                found = [e for e in errors_in(out) if "was not admitted" not in e[2]]
                lines = [l for l in out.split("\n") if l.startswith("fn ") and not l.endswith(": proved")]
                verdict, why = ("proved", "") if status == 0 else ("refused", f"{found[0][0]}#{found[0][1]}: {found[0][2]}" if found else lines[0] if lines else "")
            else:
                verdict, why = said(m, crate, out)
            book.write(m, "passed" if verdict == "proved" else verdict, why, seconds)


def run_specs(copy, laws, crate, todo, book):
    """The laws first, which take seconds; where they all hold, the functions' proofs."""
    for m in todo:
        began, verdict, why = time.time(), "passed", ""
        for each in (laws, copy):
            edits = each.apply([m])
            status, out = each.run("dev", crate)
            each.undo(edits)
            each.restore(crate)
            if status == 0:
                continue
            found = [e for e in errors_in(out) if "was not admitted" not in e[2]]
            # a mutant that antt cannot read or type is an error of the mutated declaration itself
            own = [e for e in found if e[0].endswith(m["file"]) and e[1] in m["declares"] + [""]]
            lines = [l for l in out.split("\n") if l.startswith("fn ") and not l.endswith(": proved")]
            if status is None:
                verdict, why = "no verdict", "the time was up"
            elif own:
                verdict, why = "not a program", f"{own[0][1]}: {own[0][2]}"
            elif found:
                verdict, why = "refused", f"{found[0][0]}#{found[0][1]}: {found[0][2]}"
            else:
                verdict, why = ("refused", lines[0]) if lines else ("no verdict", plain(out[-300:]))
            break
        book.write(m, verdict, why, time.time() - began)


def without_entry(text, line, column):
    """The text without the entry `name = ..` of a record's literal that stands there."""
    start = sum(len(each) + 1 for each in text.split("\n")[:line - 1]) + column - 1
    end, depth = start, 0
    while depth > 0 or text[end] not in ";}":
        depth += {"(": 1, "{": 1, ")": -1, "}": -1}.get(text[end], 0)
        end += 1
    if text[end] == ";":
        return text[:start] + text[end + 1:].lstrip(" ")
    return text[:start].rstrip(" ;") + " " + text[end:]


def mend(laws, crate, todo, book):
    """A field dropped from a record, and from every literal of it: is there a law left that takes it? The laws of the crate first, then those above."""
    for m in todo:
        began, field, verdict, why = time.time(), m["field"], "passed", "no law takes it"
        with tempfile.TemporaryDirectory(prefix="mutant") as room:
            other = pathlib.Path(room) / "repository"
            shutil.copytree(laws.path, other, symlinks=True, ignore=shutil.ignore_patterns("mutants", ".git"))
            laws.apply([m], path=other)
            steps = [["dev", crate], ["check", crate] + LAWS]
            for turn in range(60):
                status, out = laws.run(*steps[0], path=other)
                if status == 0:
                    steps.pop(0)
                    if not steps:
                        break
                    continue
                errors = [e for e in errors_in(out) if "was not admitted" not in e[2]]
                record = r"record `(?:[^`]*\.)?" + re.escape(m["owner"]) + "`"
                users = [e for e in errors if re.search(record + f" has no field `{re.escape(field)}`", e[2])]
                literals = [e for e in errors if re.search(f"`{re.escape(field)}` is not a field of {record}", e[2])]
                if users:
                    verdict, why = "refused", f"used by {users[0][0].rpartition('repository/')[2]}#{users[0][1]}"
                    break
                if not literals:
                    verdict, why = "refused", f"{errors[0][0].rpartition('repository/')[2]}#{errors[0][1]}: {errors[0][2]}" if errors else plain(out[-200:])
                    break
                for e in sorted(literals, key=lambda e: (e[0], -e[3], -e[4])):
                    path = other / ("crates" + e[0].rpartition("crates")[2])
                    path.write_text(without_entry(path.read_text(), e[3], e[4]))
        book.write(m, verdict, why, time.time() - began)


def count(crates, by):
    """A table of what was tried: a line for each crate and part, or for each kind."""
    heads = ["made", "tried", "goal", "evidence", "used", "shape", "same", "SURVIVED", "passed", "no verdict", "not a program"]
    lines = collections.defaultdict(collections.Counter)
    for crate in crates:
        book = Book(crate)
        for m in mutants_of(crate):
            line = lines[f"{crate} {m['part']}" if by == "crate" else f"{m['part']}: {m['kind']}"]
            line["made"] += 1
            if book.verdict(m):
                cells = book.done[shown(m).partition("\t")[2]]
                line["tried"] += cells[5] != "not a program"
                line[kind_of(m, cells[8]) if cells[5] == "refused" else cells[5]] += 1
    print("| " + " | ".join([by] + heads) + " |")
    print("|---" * (len(heads) + 1) + "|")
    for name, line in sorted(lines.items(), key=lambda each: by != "crate" and each[0]):
        print("| " + " | ".join([name] + [str(line[h]) for h in heads]) + " |")
    print("| " + " | ".join(["all"] + [str(sum(line[h] for line in lines.values())) for h in heads]) + " |")


def main():
    parser = argparse.ArgumentParser(prog="mutants/try")
    parser.add_argument("--list", action="store_true", help="print the mutants and try none")
    parser.add_argument("--count", choices=["crate", "kind"], help="print what was tried and what came of it")
    parser.add_argument("--only", type=int, metavar="N", help="try this one alone")
    parser.add_argument("--part", choices=["src", "specs"], help="try those of src/ or of specs/ alone")
    parser.add_argument("--kinds", help="try these kinds alone, as comparison,number")
    parser.add_argument("--settle", action="store_true", help="check those that passed their own crate from nothing, and with every crate above")
    parser.add_argument("--mend", action="store_true", help="drop fields of records again, and from their literals: does a law take them?")
    parser.add_argument("--since", metavar="COMMIT", help="try those alone of which the function or definition is not the same at that commit")
    parser.add_argument("--each", type=int, default=1, metavar="K", help="try every K-th")
    parser.add_argument("crates", nargs="*")
    given = parser.parse_args()
    crates = given.crates or [c for c in crates_below() if c not in LEFT_OUT]
    if given.count:
        count(crates, given.count)
        return
    given_room = os.environ.get("MUTANTS_COPY")
    room = pathlib.Path(given_room or tempfile.mkdtemp())
    copies = {}

    def copy_of(laws):
        if laws not in copies:
            copies[laws] = Copy(room, laws)
        return copies[laws]

    try:
        for crate in crates:
            found = mutants_of(crate)
            if given.part:
                found = [m for m in found if m["part"] == given.part]
            if given.kinds:
                found = [m for m in found if m["kind"] in given.kinds.split(",")]
            if given.since:
                found = moved_since(given.since, found)
            found = [m for k, m in enumerate(found) if k % given.each == 0]
            if given.only:
                found = [m for m in found if m["n"] == given.only]
            if given.list:
                for m in found:
                    print(shown(m))
                continue
            book = Book(crate)
            if given.settle:
                found = [m for m in found if book.verdict(m) == "passed"]
            if given.mend:
                found = [m for m in found if m["kind"] == "conjunct dropped" and m["field"] and not (book.has(m) and book.why(m).startswith(("used", "no law")))]
            todo = [m for m in found if given.only or given.settle or given.mend or not book.has(m)]
            print(f"{crate}: {len(found)} mutants, {len(todo)} to try", flush=True)
            if given.mend:
                mend(copy_of(True), crate, todo, book)
                continue
            if given.settle:
                settle(copy_of(False), lambda: copy_of(True), crate, todo, book)
                continue
            of_source, of_specs = ([m for m in todo if m["part"] == part] for part in ("src", "specs"))
            if todo:
                copy_of(False).begin(crate)
                run_source(copy_of(False), crate, of_source, book)
            if of_specs:
                copy_of(True).begin(crate)
                run_specs(copy_of(False), copy_of(True), crate, of_specs, book)
    finally:
        if not given_room:
            shutil.rmtree(room)


# the functions of these claim bounds alone, or they are programs
LEFT_OUT = ["contents", "damaged", "morning", "rinse", "board", "light", "inspect", "replay", "replay_lists", "replay_paused", "promises"]

if __name__ == "__main__":
    main()
