"""Checks of single functions with a wrong body in them, over the libraries of a checkout in which `rt ci` has ended: what wrong_bodies and
edits_by_hand share. It knows no crate's code: which functions are to be proved is told by them."""
import os
import re
import shutil
import signal
import subprocess
import tempfile
import threading

import check_functions
from edit_files import CRATES, edited

PARTS = ("src", "specs", "proofs")
# The memory of a check, in bytes.
NEED = 3_500_000_000
# Says of a proof that it names what an edit took away, from which nothing follows.
TAKEN_AWAY = r"(has no field|is not in scope|has no `|was not admitted)"
# A check's words where it cannot read what an edit made, so that no contract was tried.
UNREADABLE = r"is not in scope|has no field|is no name|operand is missing|expected the end|cannot continue"


def made(files, folder):
    """Makes edits in a copy of the crate, and answers the text of each changed file, by its path in the crate."""
    texts = {}
    for edit in files:
        for path, (_, after) in edited(edit, folder).items():
            with open(path, "w", encoding="utf-8") as file:
                file.write(after)
            texts[os.path.relpath(path, folder)] = after
    return texts


class Checks:
    """Runs of the checker over the libraries of a checkout. All of them end when this program ends."""

    def __init__(self, checkout):
        self.checkout, self.running, self.lock, self.has_stopped = os.path.abspath(checkout), set(), threading.Lock(), False
        found = subprocess.run(["rt", "doc"], capture_output=True, text=True, check=True).stdout.strip()
        self.kit = os.path.dirname(found)

    def check(self, crate, functions, files, kept=None):
        """What a check of the functions prints, in a copy of the crate with these edits made, and which files they changed. With no function
        it proves the whole crate. What it proves is kept in a folder, where one is given, for the next check of the crate."""
        with tempfile.TemporaryDirectory(prefix="wrong-bodies-") as room:
            for part in PARTS:
                if os.path.isdir(f"{CRATES}/{crate}/{part}"):
                    shutil.copytree(f"{CRATES}/{crate}/{part}", f"{room}/{part}")
            changed = made(files, room)
            try:
                words = check_functions.words_of(self.kit, self.checkout, crate, functions, kept)
            except SystemExit as lacks:      # a library
                return str(lacks), changed
            return self.said([*words, "--jobs", "1"], room), changed

    def said(self, words, folder):
        """What a check prints, with the processor time that it took as a last line."""
        how = {"cwd": folder, "stdin": subprocess.DEVNULL, "stdout": subprocess.PIPE, "stderr": subprocess.STDOUT}
        with self.lock:
            if self.has_stopped:
                return "stopped"
            started = subprocess.Popen(words, start_new_session=True, **how)
            self.running.add(started)
        try:
            said = started.stdout.read().decode(errors="replace")
            _, status, used = os.wait4(started.pid, 0)
            started.returncode = status
            return f"{said}\nprocessor time: {used.ru_utime + used.ru_stime:.0f} s, {used.ru_maxrss >> 10} MB\n"
        finally:
            with self.lock:
                self.running.discard(started)

    def stop(self):
        with self.lock:
            self.has_stopped = True
            for it in self.running:
                if it.poll() is None:
                    os.killpg(it.pid, signal.SIGKILL)


def unread(said, changed):
    """The line in which a check says that it cannot read a file that was changed, or a contract. None if there is no such line."""
    for line in said.splitlines():
        at = re.match(r"(?:\./)?(\S+?):\d+:\d+: error: (?:(`[^`]*`): )?(.*)", line)
        if at and (at[1] in changed or at[1].startswith(("src/", "specs/"))):
            if not at[2] or re.search(UNREADABLE, re.sub(r"`[^`]*`", "", at[3])):
                return line[:200]
    return None


def report_of(crate, function, said):
    """What a check says of a function, `proved` or why not, and the notes before it. None if it does not name the function."""
    notes = []
    for line in said.splitlines():
        at = re.match(r"fn (\S+): (.*)", line)
        if at and at[1].startswith(f"{crate}::") and f"::{at[1]}".endswith(f"::{function}"):
            return at[1], at[2], notes
        if at:
            notes = []
        elif re.match(r"note: src/\S+:\d+:\d+: ", line):
            notes.append(line[len("note: "):])
    return None, None, []


def judged(crate, function, said):
    """`refused` with the promise that fails, or `ACCEPTED`, or `NOT TRIED` with the reason. The function is named as a check prints it, or
    by the end of that name."""
    name, word, notes = report_of(crate, function, said)
    if name is None:
        return "NOT TRIED", f"the check does not name {function}: {said.strip()[-300:]}"
    if word == "proved":
        return "ACCEPTED", function
    place = "/".join(name.split("::")[1:])
    errors = re.findall(rf"(?m)^\./proofs/{re.escape(place)}/\S+: error: .*$", said)
    own = notes + ([word] if "` did not prove `" in word else []) + [it for it in errors if not re.search(TAKEN_AWAY, it)]
    # (first a promise to the caller, then what a step of the body needs)
    own.sort(key=lambda it: "what the function ensures" not in it)
    return ("refused", f"{function}: {own[0]}") if own else ("NOT TRIED", f"{function}: {word}")


def cost_of(said):
    """The processor time and the memory of a check."""
    return (re.findall(r"(?m)^processor time: (.*)$", said) or ["no check"])[-1]


def lanes():
    """How many checks run at once: one on each processor, if there is memory for them."""
    with open("/proc/meminfo", encoding="ascii") as file:
        free = int(re.search(r"MemAvailable:\s+(\d+)", file.read())[1]) * 1024
    return max(1, min(len(os.sched_getaffinity(0)), free // NEED, 4))
