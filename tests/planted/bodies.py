"""Wrong bodies of a crate, and checks of several of them at once. The prover judges each function
alone, against the contracts of the functions that it calls, so that one check can try many edits.
"""

import collections
import contextlib
import os
import random
import re
import shutil
import subprocess
import sys
import typing

HERE = os.path.dirname(os.path.abspath(__file__))
TOP = os.path.dirname(os.path.dirname(HERE))
HEAD = re.compile(r"^( *)(?:pub(?:\([a-z]+\))? )?(?:const )?fn (\w+)")
OWNER = re.compile(r"^impl(?:<.*?>)? (?:([\w:]+)(?:<([\w:]+).*?>)? for )?&?\(?(\w+)")
VERDICT = re.compile(r"(?m)^(?:fn|trait method|cycle) (.+?): (proved|not proved|no proof|could not tell)(.*)$")
PLACE = re.compile(r"(?:^|[\s(])(?:\./)?(src/[\w/]+\.rt):(\d+)")
ERROR = re.compile(r"(?m)^(note: )?(?:\./)?(\S+?):(\d+):\d+: (.*)$")
# what an error says that names something which an edit removed, or that depends on one that does
GONE = re.compile(r"has no field|is not in scope|has no `|was not admitted|declarations? that depends? on")
# checks of one change without some answers
ROUNDS = 8
# a verdict that says nothing of the contract, and what stands behind one that was found without the answers that say so
NAMED = "not judged: only a proof file names what the edit removed"
APART = " without the answers that name what the edit removed"
TURNED = [
    (" <= ", " < "), (" < ", " <= "), (" >= ", " > "), (" > ", " >= "), (" == ", " != "), (" != ", " == "), (" + ", " - "),
    (" - ", " + "), (" * ", " + "), (" / ", " * "), (" % ", " / "), (" += ", " -= "), (" -= ", " += "), (" && ", " || "),
    (" || ", " && "), ("true", "false"), ("false", "true"), (".min(", ".max("), (".max(", ".min("), ("is_some(", "is_none("),
    ("is_none(", "is_some("), ("if !", "if "), ("..=", ".."), ("saturating_add", "saturating_sub"), (".rev()", ""),
]


class Function(typing.NamedTuple):
    """A function: its file, its name behind that of its type, and the lines from its head to its end."""

    file: str
    name: str
    head: int
    body: int
    end: int


class Change(typing.NamedTuple):
    """Texts of a file in the place of others, by their offsets, in a function."""

    label: str
    function: Function
    parts: tuple


def owner_of(trait, argument, name):
    """The prefix of an impl's functions in the prover's output: the type, then the trait."""
    words = [name] + [word.rpartition("::")[2] for word in (trait, argument) if word]
    return "".join(words) + "::"


def body_of(lines, head, indent):
    """The first line of the body of a function; none where it is empty or left out."""
    depth = 0
    for k in range(head, len(lines)):
        line = lines[k].rstrip()
        if line.lstrip().startswith("//"):
            continue
        is_clause = line.lstrip().startswith(("ensures", "requires"))
        if line == indent + "{" or line.endswith("{") and not is_clause and depth == 0:
            return k + 1
        # a record within a clause has lines with a semicolon of their own
        depth += line.count("{") - line.count("}")
        if line.endswith("{}") or line.endswith(";") and depth == 0:
            return None
    return None


def functions_of(file, lines):
    """The functions of a file that have a body of their own lines."""
    found, owner, k = [], "", 0
    while k < len(lines):
        if lines[k].startswith("impl"):
            told = OWNER.match(lines[k])
            owner = owner_of(*told.groups()) if told else ""
        elif lines[k].startswith("}"):
            owner = ""
        head = HEAD.match(lines[k])
        body = head and body_of(lines, k, head.group(1))
        if body:
            end = next(j for j in range(body, len(lines)) if lines[j] == head.group(1) + "}")
            found.append(Function(file, (owner if head.group(1) else "") + head.group(2), k, body, end))
            k = end
        k += 1
    return found


def sources(folder):
    """The text of each file of a crate's sources."""
    texts = {}
    for place, _, names in os.walk(os.path.join(folder, "src")):
        for name in sorted(names):
            if name.endswith(".rt"):
                path = os.path.join(place, name)
                with open(path, encoding="utf-8") as file:
                    texts[os.path.relpath(path, folder)] = file.read()
    return dict(sorted(texts.items()))


def variants(texts):
    """The variants of each enum that a crate names by a path."""
    named = collections.defaultdict(set)
    for text in texts.values():
        for owner, name in re.findall(r"\b([A-Z]\w+)::([A-Z]\w+)\b", text):
            named[owner].add(name)
    return named


def turns_of(line, named):
    """The changes of one word of a line: where it stands, the word and what takes its place."""
    for old, new in TURNED:
        for told in re.finditer(re.escape(old), line):
            yield told.start(), old, new
    for told in re.finditer(r"(?<![\w.])(\d[\d_]*)(?=\b|u|i)", line):
        value = int(told.group(1).replace("_", ""))
        yield told.start(), told.group(1), str(value + 1)
        if value > 0:
            yield told.start(), told.group(1), str(value - 1)
    for told in re.finditer(r"\b([A-Z]\w+)::([A-Z]\w+)\b", line):
        for other in sorted(named[told.group(1)] - {told.group(2)}):
            yield told.start(2), told.group(2), other
    if re.match(r"^ +[a-z*].*;$", line) and not re.match(r"^ +(let|return|break|continue|use|const)\b", line):
        yield len(line) - len(line.lstrip()), line.strip(), ""


def all_changes(texts):
    """Every change of one word that there is."""
    named = variants(texts)
    for file, text in texts.items():
        lines = text.split("\n")
        starts = [0]
        for line in lines:
            starts.append(starts[-1] + len(line) + 1)
        for function in functions_of(file, lines):
            for k in range(function.body, function.end):
                line = lines[k].partition(" // ")[0]
                if line.lstrip().startswith("//"):
                    continue
                for at, old, new in turns_of(line, named):
                    label = f"{file}:{k + 1} {function.name}: `{old.strip()}` -> `{new.strip()}`"
                    yield Change(label, function, ((starts[k] + at, old, new),))


def drawn(texts, count, seed):
    """So many changes by chance, spread over functions: each function as often as any other, as far as it has changes."""
    chance = random.Random(seed)
    by_function = collections.defaultdict(list)
    for change in all_changes(texts):
        by_function[change.function].append(change)
    chosen = []
    while len(chosen) < count and by_function:
        for function in chance.sample(sorted(by_function), len(by_function)):
            if len(chosen) == count:
                break
            chosen.append(by_function[function].pop(chance.randrange(len(by_function[function]))))
            if not by_function[function]:
                del by_function[function]
    return chosen


def taken(texts, folder):
    """The edits of a folder that stand in the body of one function each."""
    changes = []
    for name in sorted(os.listdir(folder)):
        if not name.endswith(".edit"):
            continue
        with open(os.path.join(folder, name), encoding="utf-8") as file:
            words = re.split(r"(?m)^(file|old|new): ?", file.read())[1:]
        pairs = [(key, value.removesuffix("\n")) for key, value in zip(words[::2], words[1::2])]
        files = {value.strip() for key, value in pairs if key == "file"}
        text = texts.get(files.pop(), "") if len(files) == 1 else ""
        olds, news = ([value for key, value in pairs if key == wanted] for wanted in ("old", "new"))
        file = next((value.strip() for key, value in pairs if key == "file"), "")
        if not text or any(text.count(old) != 1 for old in olds):
            continue
        lines = {text[: text.index(old)].count("\n") for old in olds}
        function = next((f for f in functions_of(file, text.split("\n")) if lines <= {*range(f.body, f.end + 1)}), None)
        if function:
            changes.append(Change(name, function, tuple((text.index(old), old, new) for old, new in zip(olds, news))))
    return changes


def pairs_of(path):
    """The file, the old and the new text of each pair of an edit."""
    with open(path, encoding="utf-8") as there:
        words = re.split(r"(?m)^(file|old|new): ?", there.read())[1:]
    file = old = ""
    for key, value in zip(words[::2], words[1::2]):
        if key == "new":
            yield file, old, value.removesuffix("\n")
        file = value.strip() if key == "file" else file
        old = value.removesuffix("\n") if key == "old" else old


def edited(folder, path):
    """The texts of a crate's files with an edit."""
    texts = {}
    for file, old, new in pairs_of(path):
        if file not in texts:
            with open(os.path.join(folder, file), encoding="utf-8") as there:
                texts[file] = there.read()
        texts[file] = texts[file].replace(old, new)
    return texts


def touched(texts, path):
    """The functions in which an edit changes something."""
    found = []
    for file, old, _ in pairs_of(path):
        line = texts[file][: texts[file].index(old)].count("\n") if old in texts.get(file, "") else None
        found += [it for it in functions_of(file, texts.get(file, "").split("\n")) if line is not None and it.head <= line <= it.end]
    return found


def below(crate):
    """The crates of the repository that a crate depends on."""
    with open(os.path.join(TOP, "crates.txt"), encoding="utf-8") as file:
        uses = {name: set(rest.split()) for name, rest in re.findall(r"(?m)^(\w+):(.*)$", file.read())}
    found, waiting = set(), [crate]
    while waiting:
        for name in uses.get(waiting.pop(), set()) & uses.keys() - found:
            found.add(name)
            waiting.append(name)
    return found


def linked(source, target):
    """Makes a hard link, or a copy on another file system. rt replaces files and never writes into one."""
    try:
        os.link(source, target)
    except OSError:
        shutil.copy2(source, target)


class Copy:
    """A copy of the repository, in which the crate is changed and checked."""

    def __init__(self, crate, room):
        self.crate, self.room = crate, room
        self.folder = os.path.join(room, "crates", crate)
        listed = subprocess.run(["git", "ls-files", "-z"], cwd=TOP, capture_output=True, text=True, check=True).stdout
        for name in filter(None, listed.split("\0")):
            source, target = os.path.join(TOP, name), os.path.join(room, name)
            if os.path.isfile(source):
                os.makedirs(os.path.dirname(target), exist_ok=True)
                shutil.copy2(source, target)
        for name in below(crate) | {crate}:
            built = os.path.join("crates", name, "out")
            if os.path.isdir(os.path.join(TOP, built)):
                copy = shutil.copy2 if name == crate else linked
                shutil.copytree(os.path.join(TOP, built), os.path.join(room, built), symlinks=True, copy_function=copy)
        self.texts = sources(self.folder)

    def write(self, changes):
        """Writes the sources with some changes."""
        texts = dict(self.texts)
        parts = [(change.function.file, *part) for change in changes for part in change.parts]
        for file, at, old, new in sorted(parts, reverse=True):
            texts[file] = texts[file][:at] + new + texts[file][at + len(old) :]
        for file, text in texts.items():
            path = os.path.join(self.folder, file)
            with open(path, encoding="utf-8") as there:
                if there.read() == text:
                    continue
            with open(path, "w", encoding="utf-8") as there:
                there.write(text)

    def checked(self, changes):
        """What a check says of the crate with some changes."""
        self.write(changes)
        return self.check()

    def check(self):
        """What a check says of the crate as it stands in the copy."""
        words = ["rt", "check", "--jobs", os.environ.get("RT_JOBS") or "1"]
        done = subprocess.run(words, cwd=self.folder, stdin=subprocess.DEVNULL, capture_output=True, text=True)
        return done.stdout + done.stderr

    @contextlib.contextmanager
    def holding(self, texts):
        """The copy with these texts of files, by their paths in the crate."""
        was = {}
        for file, text in texts.items():
            path = os.path.join(self.folder, file)
            with open(path, encoding="utf-8") as there:
                was[path] = there.read()
            with open(path, "w", encoding="utf-8") as there:
                there.write(text)
        try:
            yield
        finally:
            for path, text in was.items():
                with open(path, "w", encoding="utf-8") as there:
                    there.write(text)

    def judged(self, functions):
        """The verdict on the crate as it stands, with wrong bodies of these functions. While only answers are refused, and only because
        they name what isn't there, they are left out and the crate is checked again."""
        kept = {}
        try:
            for _ in range(ROUNDS):
                printed = self.check()
                if not re.search(r"(?m)^logic=", printed):
                    return "not judged"
                told = errors(printed)
                apart = APART if kept else ""
                if re.search(r"(?m)^logic=proved", printed):
                    return "PROVED" + apart
                if not told or not all(is_gone for is_gone, _, _ in told):
                    return "refused" + apart
                places = gone(functions, printed)
                if not places:
                    return NAMED
                self.leave_out(places, kept)
            return NAMED
        finally:
            for path, text in kept.items():
                with open(path, "w", encoding="utf-8") as file:
                    file.write(text)

    def leave_out(self, places, kept):
        """Removes the declarations at these places; `kept` has the files as they were."""
        for file in {file for file, _ in places}:
            path = os.path.join(self.folder, file)
            with open(path, encoding="utf-8") as there:
                text = there.read()
            kept.setdefault(path, text)
            with open(path, "w", encoding="utf-8") as there:
                there.write(without(text, [line for other, line in places if other == file]))


def verdict_of(change, verdicts):
    """What a check says of the function of a change."""
    last = change.function.name.rpartition("::")[2]
    module = change.function.file.removeprefix("src/").removesuffix(".rt").removesuffix("/mod")
    module = "" if module == "lib" or module == "main" else module.replace("/", "::") + "::"
    said = [told for name, told in verdicts if re.search(rf"(^|[:. ]){last}\b", name.rpartition("::")[2] + " " + name) and name.endswith(last)]
    within = [told for name, told in verdicts if name.endswith("::" + last) and ("::" + module) in name.replace("<", "::")]
    exact = [told for name, told in verdicts if name.endswith("::" + module + change.function.name)]
    return next((list_ for list_ in (exact, within, said) if list_), [])


def own(rest):
    """What a verdict says of a function itself, without what it says of those that it calls."""
    parts = re.split(r"[:;] ", rest)
    return [part for part in parts if part and not part.startswith(("it calls ", "it passes ", "it waits "))]


def answers_of(function):
    """A pattern for the proof files of a function, which have its name in theirs."""
    return re.compile(rf"proofs/(?:.*/)?\+?{re.escape(function.name.rpartition('::')[2])}/(?:Answers|Invariants)\.antt")


def errors(printed):
    """The errors that a check printed: whether each only names something that isn't there, its file and its line."""
    told = ERROR.findall(printed)
    told = [it for it in told if it[0] or "error" in it[3]] or told
    return [(bool(it[1].startswith("proofs/") and GONE.search(it[3])), it[1], int(it[2])) for it in told]


def gone(functions, printed):
    """The places in the proof files of functions that name something which isn't there."""
    patterns = [answers_of(function) for function in functions]
    return [(file, line) for is_gone, file, line in errors(printed) if is_gone and any(it.fullmatch(file) for it in patterns)]


def without(text, lines):
    """A proof file without the declarations that stand at these lines; without the line alone for an import."""
    rows, drop = text.split("\n"), set()
    heads = [k for k, row in enumerate(rows) if row[:1].strip() and (k == 0 or not rows[k - 1].strip() or row.startswith("use "))]
    for line in lines:
        start = max((k for k in heads if k < line), default=0)
        end = next((k for k in heads if k > start), len(rows))
        drop |= {start} if rows[start].startswith("use ") else {*range(start, end)}
    return "\n".join(row for k, row in enumerate(rows) if k not in drop)


def judge(changes, printed):
    """Sorts changes by what a check printed: those that are judged, with their verdicts, and those that aren't. A function that has no
    proof for those alone that it calls is proved by their contracts."""
    verdicts = [(name, (told, rest)) for name, told, rest in VERDICT.findall(printed)]
    judged, left = {}, []
    for change in changes:
        said = verdict_of(change, verdicts)
        if any(told == "not proved" or told == "no proof" and own(rest) for told, rest in said):
            judged[change] = NAMED if gone([change.function], printed) else "refused"
        elif said and all(told in ("proved", "no proof") for told, _ in said):
            judged[change] = "PROVED"
        else:
            left.append(change)
    return judged, left


def blamed(changes, printed):
    """The changes that errors of the source name, by their lines."""
    lines = {(file, int(line)) for file, line in PLACE.findall(printed)}
    hit = []
    for change in changes:
        function = change.function
        grown = sum(new.count("\n") - old.count("\n") for other in changes if other.function.file == function.file for _, old, new in other.parts)
        span = range(function.head + 1 - abs(grown), function.end + 2 + abs(grown))
        if any(file == function.file and line in span for file, line in lines):
            hit.append(change)
    return hit


def batch_of(waiting):
    """Changes of functions of which no two are the same."""
    chosen = {}
    for change in waiting:
        chosen.setdefault(change.function, change)
    return list(chosen.values())


class Trial:
    """The changes that wait, and what came of the others. One that only a proof file refuses is tried again, without these answers."""

    def __init__(self, copy, changes, tell):
        self.copy, self.waiting, self.ended, self.tell = copy, list(changes), {}, tell
        self.tries = collections.Counter()

    def end(self, change, said):
        self.ended[change] = said
        self.waiting.remove(change)
        self.tell(change, said)

    def round(self, changes):
        """One check of several changes."""
        printed = self.copy.checked(changes)
        if not re.search(r"(?m)^logic=|could not tell", printed):
            self.drop(changes, printed)
            return
        judged, left = judge(changes, printed)
        for change, said in judged.items():
            self.end(change, self.again(change) if said == NAMED else said)
        for change in left:
            self.tries[change] += 1
            if self.tries[change] > 2 or len(changes) == 1:
                self.end(change, "not judged")
            else:
                self.waiting.remove(change)
                self.waiting.insert(0, change)

    def again(self, change):
        """The verdict on one change alone."""
        self.copy.write([change])
        return self.copy.judged([change.function])

    def drop(self, changes, printed):
        """Ends the changes that don't compile; where no line names one, each half is tried by itself."""
        hit = changes if len(changes) == 1 else blamed(changes, printed)
        for change in hit:
            self.end(change, "no source")
        if not hit:
            half = len(changes) // 2
            self.round(changes[:half])
            self.round(changes[half:])


def tried(copy, changes, tell):
    """The verdict on each change; `tell` is called with each as it ends."""
    printed = copy.checked([])
    if not re.search(r"(?m)^logic=proved", printed):
        sys.exit(f"planted: {copy.crate} isn't proved as it is\n" + printed[-2000:])
    trial = Trial(copy, changes, tell)
    while trial.waiting:
        trial.round(batch_of(trial.waiting))
    return trial.ended
