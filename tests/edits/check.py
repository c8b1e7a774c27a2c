#!/usr/bin/env python3
"""Checks each crate anew with each of its must-fail edits, and reads what the check says.

    tests/edits/check.py [--anew] [CRATE | CRATE/EDIT]..      all edits, or those of these crates, or these alone

An edit may make several functions of a crate wrong, each of them marked `refused: FUNCTION`. The check must say of
each that its own proof fails, and not only that it calls one whose proof does. And no edit may be refused because a
place in the code or a name is missing, which a proof of any answer would be: a fact must fail.

The crates are copied to a folder for temporary files and checked there by `rt check`: as they stand, and then with one
edit at a time. An edit is not tried again where `rt ci` has tried it in the same gate and told which fact fails, if it
marks no function, or one at which that fact stands: EDITS_TOLD names what that wrote. An edit that passed is kept for
later runs on this machine, by the checksum of all that its check read; --anew tries all of them.
"""
import doctest
import functools
import hashlib
import os
import queue
import re
import shutil
import subprocess
import sys
import tempfile
import threading
import time

ROOT = os.path.normpath(f"{os.path.dirname(os.path.realpath(__file__))}/../..")
KEPT = f"{os.environ.get('XDG_CACHE_HOME') or os.path.expanduser('~/.cache')}/must-fail-edits"
# What a check of a crate takes at most, in bytes.
MEMORY = 3_000_000_000
# What the check says of a function whose own proof fails: its answers are refused, or no answer is found.
ITSELF = r"not proved|no proof: [^;]*; `search` did not prove [^;]*"
# What the check says where a place or a name is missing, or where a text cannot be read.
MISSING = re.compile(
    r"error: .*(has no field|that can be named|is not in scope|has no `|is no name|operand is missing"
    r"|expected the end|cannot continue)"
    r"|error\[[\w-]+\]"
)
# What `rt ci` says of an edit, with the first fact that fails.
TOLD = re.compile(r"^rt: must-fail (\S+)\.edit: refused, as it must be: (.+)$", re.M)


def read(path):
    with open(path, encoding="utf-8") as it:
        return it.read()


def write(path, text):
    with open(path, "w", encoding="utf-8") as it:
        it.write(text)


class Crates:
    """A copy of the repository's crates."""

    def __init__(self, top):
        self.top = top
        self.rows = {}
        for row in read(f"{top}/crates.txt").split("\n"):
            head, _, libraries = row.partition("#")[0].partition(":")
            if head.strip():
                self.rows[head.split()[0]] = (head.split(), libraries.split())

    def folder(self, crate):
        return f"{self.top}/crates/{crate}"

    def size(self, crate):
        walked = os.walk(f"{self.folder(crate)}/src")
        return sum(os.path.getsize(f"{at}/{name}") for at, _, names in walked for name in names)

    @functools.lru_cache(maxsize=None)
    def sum(self, crate):
        """A checksum of all that a check of the crate reads, but the kit."""
        sum = hashlib.sha256(repr(self.rows[crate]).encode())
        for part in ("src", "specs", "proofs"):
            for at, folders, names in os.walk(f"{self.folder(crate)}/{part}"):
                folders.sort()
                for name in sorted(names):
                    path = f"{at}/{name}"
                    sum.update(repr((os.path.relpath(path, self.top), read(path))).encode())
        below = [self.sum(it) for it in self.rows[crate][1] if it in self.rows]
        sum.update(repr(below).encode())
        return sum.hexdigest()


def edits_of(crate):
    """The crate's edits by name, with their texts."""
    folder = f"{ROOT}/crates/{crate}/must-fail"
    names = sorted(os.listdir(folder)) if os.path.isdir(folder) else []
    return {it[: -len(".edit")]: read(f"{folder}/{it}") for it in names if it.endswith(".edit")}


def edited(text, folder):
    """The texts that the edit makes of the crate's files, by path."""
    path, old, texts = None, None, {}
    for line in text.split("\n"):
        word, _, rest = line.partition(": ")
        if word == "file":
            path = rest.strip()
            texts.setdefault(path, read(f"{folder}/{path}"))
        elif word == "old":
            old = rest
        elif line.startswith("new:"):
            if texts[path].count(old) != 1:
                raise ValueError(f"'{old}' stands in {path} {texts[path].count(old)} times")
            texts[path] = texts[path].replace(old, line[len("new:") :][1:])
    return texts


def marked(text):
    """The functions that the edit makes wrong."""
    return [line[len("refused: ") :].strip() for line in text.split("\n") if line.startswith("refused: ")]


def check(folder):
    """Proves the crate in the folder, over what its last check kept. Gives the exit status and what was said."""
    how = {"cwd": folder, "stdin": subprocess.DEVNULL, "stdout": subprocess.PIPE, "stderr": subprocess.STDOUT}
    for _ in range(2):
        ran = subprocess.run(["rt", "check", "--jobs", "1"], **how)
        if ran.returncode in (0, 1, 3):
            break
        # (killed, most likely for memory: once more)
    return ran.returncode, ran.stdout.decode("utf-8", "replace")


def by_a_fact(status, said):
    """Why what the check said of an edit is no fact that fails, in each proof; or None."""
    if status == 0:
        return "the crate is still proved"
    if status != 1 or not re.search(r"^logic=not-proved", said, re.M):
        return f"the check ended with status {status} and said:\n{said[:1000]}"
    missing = next((it for it in said.split("\n") if MISSING.search(it)), None)
    return missing and f"a place or a name is missing: {missing[:400]}"


def itself(function, said):
    """Why the function is not refused by itself; or None."""
    found = re.findall(rf"^fn {re.escape(function)}: (.*)$", said, re.M)
    if any(re.fullmatch(ITSELF, it) for it in found):
        return None
    return f"{function} is not refused by itself: {'; '.join(found) or 'nothing is said of it'}"


def tried(folder, text):
    """What fails of an edit of the crate in the folder."""
    texts = edited(text, folder)
    were = {path: read(f"{folder}/{path}") for path in texts}
    try:
        for path, new in texts.items():
            write(f"{folder}/{path}", new)
        status, said = check(folder)
    finally:
        for path, old in were.items():
            write(f"{folder}/{path}", old)
    whys = [by_a_fact(status, said), *(itself(it, said) for it in marked(text))]
    return [it for it in whys if it]


def told():
    """The edits of which `rt ci` told in this gate that a fact fails, with that fact."""
    path = os.environ.get("EDITS_TOLD")
    return {edit: fact for edit, fact in TOLD.findall(read(path)) if not MISSING.search(fact)} if path else {}


def names_at(text, row):
    """The names of the function around a line of the code, or begun by it; its type's first if it is a method.

    >>> code = "impl A<'_> {\\n    fn f() {\\n    }\\n}\\n#[x]\\npub(crate) fn g() {"
    >>> names_at(code, 1), names_at(code, 2), names_at(code, 3), names_at(code, 5)
    ([], ['A', 'f'], ['A', 'f'], ['g'])
    """
    lines = text.split("\n")
    while lines[row - 1].lstrip().startswith("#["):
        row += 1
    fn, block = None, None
    for line in lines[:row]:
        fn = re.match(r"(\s*)(?:pub(?:\(\w+\))? )?fn (\w+)", line) or fn
        block = re.match(r"impl\b.*?(\w+)(?:<.*>)? \{", line) or block
    if not fn:
        return []
    return [block[1], fn[2]] if fn[1] and block else [fn[2]]


def stands_at(fact, function, folder):
    """Whether a fact that fails stands in the function's proof, or in its code.

    >>> stands_at("./proofs/a/T/f/Answers.antt:6:3: error: it", "c::a::T::f", "")
    True
    >>> stands_at("./proofs/a/f/Answers.antt:6:3: error: it", "c::a::T::f", "")
    False
    >>> stands_at("./proofs/f.antt:6:3: error: it", "c::f", "")
    False
    """
    path = function.split("::")[1:]
    if proof := re.match(r"\./proofs/(\S+)/\w+\.antt:\d", fact):
        return proof[1].split("/") == path
    code = re.match(r"(?:note: )?src/(\S+)\.rt:(\d+):\d+: it is not proved that ", fact)
    if not code:
        return False
    modules = [] if code[1] == "lib" else code[1].split("/")
    return path == modules + names_at(read(f"{folder}/src/{code[1]}.rt"), int(code[2]))


def taken(fact, functions, folder):
    """Whether what was told of an edit is all that there is to see: it marks no function, or one at which it stands."""
    return bool(fact) and (not functions or (len(functions) == 1 and stands_at(fact, functions[0], folder)))


class Counts:
    """What passed and what failed, of all lanes."""

    def __init__(self):
        self.alone, self.passed, self.failed = threading.Lock(), 0, 0

    def tell(self, label, tests, errors, how):
        """An edit is one test, and one more for each function that it marks."""
        with self.alone:
            self.passed += max(tests - len(errors), 0)
            self.failed += len(errors)
            for it in errors:
                print(f"error: {label}: {it}")
            functions = f", {tests - 1} functions" if tests > 1 else ""
            print(f"{label}: {'FAILED' if errors else 'as it must be'}{functions} ({how})", flush=True)


def lane(copy, waiting, counts):
    """Takes crates until none is left. A lane has its own copy of all crates: an edit in one would be below another."""
    while True:
        try:
            crate, edits = waiting.get_nowait()
        except queue.Empty:
            return
        began = time.time()
        status, said = check(copy.folder(crate))
        if status:
            print(f"error: {crate} is not proved:\n{said[-2000:]}", flush=True)
        else:
            print(f"{crate}: proved as it stands ({time.time() - began:.0f} s)", flush=True)
        for edit, (text, kept) in edits.items():
            began = time.time()
            try:
                errors = [f"{crate} is not proved as it stands"] if status else tried(copy.folder(crate), text)
            except (OSError, ValueError, KeyError) as error:
                errors = [f"it cannot be applied: {error}"]
            counts.tell(f"{crate}/{edit}", 1 + len(marked(text)), errors, f"{time.time() - began:.0f} s")
            if not errors:
                keep(kept)


def keep(path):
    try:
        os.makedirs(KEPT, exist_ok=True)
        write(path, "")
    except OSError:
        pass


def lanes():
    """How many checks at a time: one for each processor, as memory allows."""
    found = re.search(r"^MemAvailable:\s+(\d+)", read("/proc/meminfo"), re.M)
    room = 1024 * int(found[1]) // MEMORY if found else 1
    return max(1, min(len(os.sched_getaffinity(0)), room))


def copied(source, to):
    """Copies the crates without their edits and what rt made of them."""
    more = lambda at, names: {"out", "must-fail"} & {*names} if os.path.dirname(at) == f"{source}/crates" else ()
    shutil.copytree(f"{source}/crates", f"{to}/crates", ignore=more)
    for name in ("crates.txt", "HANDLES"):
        if os.path.isfile(f"{source}/{name}"):
            shutil.copy(f"{source}/{name}", to)
    return Crates(to)


def main(words):
    anew, words = "--anew" in words, {it for it in words if it != "--anew"}
    version = subprocess.run(["rt", "version"], stdout=subprocess.PIPE, check=True).stdout
    own = doctest.testmod()
    counts, waiting, new, of, tests = Counts(), queue.Queue(), [], 0, own.attempted
    counts.passed, counts.failed = own.attempted - own.failed, own.failed
    tried_before = {} if anew else told()
    with tempfile.TemporaryDirectory(prefix="edits-") as room:
        first = copied(ROOT, f"{room}/0")
        for crate in first.rows:
            edits = {}
            for edit, text in edits_of(crate).items():
                if words and not words & {crate, f"{crate}/{edit}"}:
                    continue
                read_by = (version, read(os.path.realpath(__file__)), first.sum(crate), edit, text)
                kept = f"{KEPT}/{hashlib.sha256(repr(read_by).encode()).hexdigest()}"
                of += 1
                tests += 1 + len(marked(text))
                if os.path.isfile(kept) and not anew:
                    counts.tell(f"{crate}/{edit}", 1 + len(marked(text)), [], "kept")
                elif taken(tried_before.get(f"{crate}/{edit}"), marked(text), first.folder(crate)):
                    counts.tell(f"{crate}/{edit}", 1 + len(marked(text)), [], "told by rt ci")
                    keep(kept)
                else:
                    edits[edit] = text, kept
            if edits:
                new.append((crate, edits))
        print(f"{of} edits, of which {sum(len(it) for _, it in new)} are tried", flush=True)
        for it in sorted(new, key=lambda it: -first.size(it[0]) * len(it[1])):
            waiting.put(it)
        copies = [first if it == 0 else copied(first.top, f"{room}/{it}") for it in range(min(lanes(), len(new)))]
        running = [threading.Thread(target=lane, args=(it, waiting, counts), daemon=True) for it in copies]
        for it in running:
            it.start()
        for it in running:
            it.join()
    missed = tests - counts.passed - counts.failed
    if missed:
        print(f"error: of {tests} tests {missed} were not run: a lane ended before them")
        counts.failed += missed
    print(f"{counts.passed} passed, {counts.failed} failed")
    return 0 if counts.passed and not counts.failed else 1


if __name__ == "__main__":
    sys.exit(main(sys.argv[1:]))
