"""The edits of crates/*/must-fail, each tried on a copy of the repository, for tests/edits.sh.

    python3 -B tests/edits.py LOGS [CRATE..]       LOGS/CRATE/EDIT.log is what `rt check` prints of the crate with all wrong programs of the edit; of these crates, or of all
    python3 -B tests/edits.py --part LOGS <LIST    of each line CRATE EDIT N,N: LOGS/CRATE/EDIT.N-N.log, with the Nth wrong programs alone, and what only changes imports

`rt ci` says whether an edit is refused, and not where; and of what it says it keeps one line. So the edits are applied here as rt applies them: a line `file: ` is for all pairs
behind it, each old text stands there once, and a pair applies to what those before it made. That is done in copies, one for each process at work, which stand outside the repository,
since rt stops at a file of a crate in a place where no check reads it. A copy has the files of all crates, and what was proved and built of them: so first the
crates are checked here. In a copy one crate at a time is another one than it was, and it is put back before the next.

The last line of a log has a sum of all that was read for it, the edit, the crate, those below it and the toolchain's identity: while that is the same, nothing is tried again.
The exit status is 0 if each edit was tried; what the logs say is not looked at here."""

import concurrent.futures
import glob
import hashlib
import os
import re
import shutil
import signal
import subprocess
import sys
import tempfile
import threading
import time

from crates_list import crates_list

PARTS = ("src", "specs", "proofs")
TRIED = "edits: tried, "


class Program:
    """A paragraph of an edit: its pairs, each with its file, and whether it is a wrong program: whether it has a line `at: `."""

    def __init__(self):
        self.pairs, self.is_wrong = [], False


def read_edit(path):
    """The paragraphs of an edit that have pairs, and the lines that begin none."""
    programs, file, old = [Program()], "", None
    with open(path, encoding="utf-8") as opened:
        for line in opened.read().split("\n"):
            if not line.strip():
                programs.append(Program())
            elif line.startswith("file: "):
                file = line[len("file: ") :].strip()
            elif line.startswith("at: "):
                programs[-1].is_wrong = True
            elif line.startswith("old: "):
                old = line[len("old: ") :]
            elif line.startswith("new:"):
                programs[-1].pairs.append((file, old, line[len("new:") :].removeprefix(" ")))
                old = None
    return [program for program in programs if program.pairs or program.is_wrong]


def applied(folder, pairs):
    """The texts of a crate's files that the pairs change, by their path; or why they cannot be applied."""
    texts = {}
    for file, old, new in pairs:
        if file not in texts:
            try:
                with open(os.path.join(folder, file), encoding="utf-8", newline="") as opened:
                    texts[file] = opened.read()
            except OSError:
                return None, f"there is no file {file}"
        if not old or texts[file].count(old) != 1:
            return None, f"the text '{old}' stands in {file} {texts[file].count(old) if old else 0} times, and not once"
        texts[file] = texts[file].replace(old, new)
    return (texts, "") if texts else (None, "it has no pair of lines 'old: ' and 'new: '")


class Task:
    """An edit to try, or one wrong program of it: the pairs, and where the log goes."""

    def __init__(self, crate, log, pairs):
        self.crate, self.log, self.pairs, self.sum = crate, log, pairs, ""


def whole_edits(logs, crates):
    """Each edit of these crates."""
    tasks = []
    for path in sorted(glob.glob("crates/*/must-fail/*.edit")):
        crate, label = path.split("/")[1], os.path.basename(path).removesuffix(".edit")
        if not crates or crate in crates:
            tasks.append(Task(crate, f"{logs}/{crate}/{label}.log", [pair for program in read_edit(path) for pair in program.pairs]))
    return tasks


def parts_of_edits(logs, lines):
    """Of each line some wrong programs of an edit."""
    tasks = []
    for crate, label, numbers in (line.split() for line in lines):
        programs = read_edit(f"crates/{crate}/must-fail/{label}.edit")
        wrong = [program for program in programs if program.is_wrong]
        asked = [wrong[int(number) - 1] for number in numbers.split(",")]
        pairs = [pair for program in programs if program in asked or not program.is_wrong for pair in program.pairs]
        tasks.append(Task(crate, f"{logs}/{crate}/{label}.{numbers.replace(',', '-')}.log", pairs))
    return tasks


class Repository:
    def __init__(self):
        self.uses = crates_list("crates.txt")
        self.toolchain = subprocess.run(["rt", "version"], check=True, stdout=subprocess.PIPE).stdout
        self.sums = {}

    def below(self, crate):
        """The crate and all of the repository that it uses, directly or through others."""
        found = [crate]
        for name in found:
            found += sorted(self.uses.get(name, set()) & self.uses.keys() - set(found))
        return sorted(found)

    def sum_of(self, crate):
        """Of the crate's own files."""
        if crate not in self.sums:
            whole = hashlib.sha256()
            for path in sorted(path for part in PARTS for path in glob.glob(f"crates/{crate}/{part}/**", recursive=True) if os.path.isfile(path)):
                with open(path, "rb") as file:
                    whole.update(f"{path} {hashlib.sha256(file.read()).hexdigest()}\n".encode())
            self.sums[crate] = whole.hexdigest()
        return self.sums[crate]

    def sum(self, task):
        whole = hashlib.sha256(self.toolchain)
        for name in self.below(task.crate):
            whole.update(f"{name}: {sorted(self.uses[name])} {self.sum_of(name)}\n".encode())
        if os.path.isfile("HANDLES"):
            with open("HANDLES", "rb") as file:
                whole.update(file.read())
        return whole.hexdigest() + hashlib.sha256(repr(task.pairs).encode()).hexdigest()

    def weight(self, crate):
        """About how long a check takes: by what it reads."""
        return sum(os.path.getsize(path) for part in PARTS for path in glob.glob(f"crates/{crate}/{part}/**", recursive=True) if os.path.isfile(path))


def is_tried(task):
    """Whether the log is of this very edit, and of these very crates."""
    try:
        with open(task.log, encoding="utf-8", errors="replace") as file:
            return file.read().endswith(f"{TRIED}{task.sum}\n")
    except OSError:
        return False


def linked(one, other):
    """A copy, of what was proved by a link where that can be made: a check puts another file in its place, and changes none."""
    if one.endswith(".oantt"):
        try:
            return os.link(one, other)
        except OSError:
            pass
    return shutil.copy2(one, other)


def copy(every, built, to):
    """A copy of the repository, with what is built of some crates, and without what checks kept: `try_one` puts that there."""
    for name in ("crates.txt", "HANDLES"):
        if os.path.isfile(name):
            shutil.copy2(name, to)
    for crate in every:
        for part in (*PARTS, "out") if crate in built else PARTS:
            if os.path.isdir(f"crates/{crate}/{part}"):
                shutil.copytree(f"crates/{crate}/{part}", f"{to}/crates/{crate}/{part}", copy_function=linked, ignore=shutil.ignore_patterns("incremental") if part == "out" else None)


def try_one(task, room):
    """Checks the crate in a copy with the edit, keeps the log and puts the files back; whether it came to a verdict."""
    folder = f"{room}/crates/{task.crate}"
    texts, why = applied(folder, task.pairs)
    said, status = f"edits: {why}\n", None
    if texts:
        kept = {}
        for file, text in texts.items():
            with open(f"{folder}/{file}", encoding="utf-8", newline="") as opened:
                kept[file] = opened.read()
        try:
            for file, text in texts.items():
                with open(f"{folder}/{file}", "w", encoding="utf-8", newline="") as opened:
                    opened.write(text)
            for _ in range(2):
                shutil.rmtree(f"{folder}/out/incremental", ignore_errors=True)
                if os.path.isdir(f"crates/{task.crate}/out/incremental"):
                    shutil.copytree(f"crates/{task.crate}/out/incremental", f"{folder}/out/incremental", symlinks=True, copy_function=linked)
                ran = subprocess.run(["rt", "check", "--jobs", "1"], cwd=folder, stdin=subprocess.DEVNULL, stdout=subprocess.PIPE, stderr=subprocess.STDOUT)
                said, status = ran.stdout.decode("utf-8", "replace"), ran.returncode
                # killed, most likely for memory: once more
                if status >= 0:
                    break
        finally:
            for file, text in kept.items():
                with open(f"{folder}/{file}", "w", encoding="utf-8", newline="") as opened:
                    opened.write(text)
    os.makedirs(os.path.dirname(task.log), exist_ok=True)
    is_judged = status in (0, 1, 3)
    with open(task.log, "w", encoding="utf-8") as file:
        file.write(said if said.endswith("\n") else said + "\n")
        file.write(f"{TRIED}{task.sum}\n" if is_judged or not texts else f"edits: rt ended with status {status}, so nothing is known\n")
    return is_judged or not texts


def prepare(named):
    """Checks the crates here: so each is proved without the edits, what is below it is built, and a check of a copy begins with what was proved. Whether that went well."""
    runs = [(f"crates/{crate}", ["rt", "check"]) for crate in named] or [(".", ["rt", "all", "check"])]
    for folder, words in runs:
        ran = subprocess.run(words, cwd=folder, stdin=subprocess.DEVNULL, stdout=subprocess.PIPE, stderr=subprocess.STDOUT)
        if ran.returncode != 0:
            print(f"edits: '{' '.join(words)}' failed in {folder}, so no edit is tried; its last lines are", flush=True)
            print("\n".join("    | " + line[:300] for line in ran.stdout.decode("utf-8", "replace").rstrip().split("\n")[-8:]), flush=True)
            return False
    return True


def try_all(repository, tasks):
    """Tries the edits on some copies at once, the crates that take longest first; whether each came to a verdict."""
    by_crate = {}
    for task in tasks:
        by_crate.setdefault(task.crate, []).append(task)
    queue = sorted(by_crate, key=lambda crate: len(by_crate[crate]) * repository.weight(crate))
    workers, lock, judged = min(3, os.cpu_count() or 1, len(by_crate)), threading.Lock(), []

    def work(room):
        copy(repository.uses, built, room)
        while True:
            with lock:
                if not queue:
                    return
                crate = queue.pop()
            began = time.monotonic()
            of_crate = [try_one(task, room) for task in by_crate[crate]]
            with lock:
                judged.extend(of_crate)
                print(f"edits: tried {len(of_crate)} of {crate}, {time.monotonic() - began:.0f} s", flush=True)

    built = sorted({name for crate in by_crate for name in repository.below(crate)})
    with tempfile.TemporaryDirectory(prefix="vichrelka-edits-") as rooms:
        for number in range(workers):
            os.mkdir(f"{rooms}/{number}")
        with concurrent.futures.ThreadPoolExecutor(workers) as pool:
            for done in [pool.submit(work, f"{rooms}/{number}") for number in range(workers)]:
                done.result()
    return len(judged) == len(tasks) and all(judged)


def main():
    sys.stdout.reconfigure(encoding="utf-8")
    signal.signal(signal.SIGTERM, lambda *_: sys.exit(1))
    is_part, words = sys.argv[1] == "--part", sys.argv[1:]
    logs, named = words[is_part], words[is_part + 1 :]
    repository = Repository()
    strange = [crate for crate in named if crate not in repository.uses]
    if strange:
        print(f"edits: {strange[0]} is no crate of crates.txt")
        return 1
    tasks = parts_of_edits(logs, sys.stdin.read().splitlines()) if is_part else whole_edits(logs, named)
    for task in tasks:
        task.sum = repository.sum(task)
    tasks = [task for task in tasks if not is_tried(task)]
    if not tasks:
        return 0
    # a part of an edit comes behind the whole, for which all was proved
    if not is_part and not prepare(named):
        return 1
    return 0 if try_all(repository, tasks) else 1


if __name__ == "__main__":
    sys.exit(main())
