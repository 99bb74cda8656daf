"""Proves the crates of this repository, in a folder of their own, by the steps of the toolchain's `rt`."""
import contextlib
import copy
import fcntl
import hashlib
import importlib.machinery
import importlib.util
import json
import os
import re
import shutil
import signal
import stat
import subprocess
import sys
import tempfile
import time
import traceback

TOP = os.path.dirname(os.path.dirname(os.path.realpath(__file__)))
UNKNOWN_SECONDS = 60
# The memory that is counted for a proof.
BYTES_EACH = 4 << 30
# How the process of a crate ends.
PROVED, FAILED, KEPT, KILLED = 0, 1, 2, 3
TOLD = {PROVED: "proved", FAILED: "NOT PROVED", KEPT: "kept by an earlier run", KILLED: "killed"}


def place_of_clone():
    """Returns the folder in which the files of this clone are proved as they stand: no two clones have one."""
    cache = os.environ.get("XDG_CACHE_HOME", "")
    if not os.path.isabs(cache):
        cache = os.path.expanduser("~/.cache")
    if not os.path.isabs(cache):
        sys.exit("tools/prove: there is no home directory: set XDG_CACHE_HOME to the folder of a cache")
    name = TOP.replace("%", "%25").replace("-", "%2D").replace("/", "-")
    return f"{cache}/cm{name}"


def load_rt():
    """Loads the toolchain's `rt`, whose steps are called here."""
    found = subprocess.run(["sh", "-c", "command -v rt"], capture_output=True, text=True).stdout.strip()
    path = os.path.realpath(found or "/opt/rattle/bin/rt")
    loader = importlib.machinery.SourceFileLoader("rt_main", path)
    made = importlib.util.module_from_spec(importlib.util.spec_from_loader("rt_main", loader))
    sys.modules["rt_main"] = made
    loader.exec_module(made)
    return made


def below_once(rt):
    """Has each crate remember those below it, which rt finds anew at each way that leads to it."""

    def below(crate):
        if not hasattr(crate, "known_below"):
            crate.known_below = list({it.name: it for dep in crate.deps for it in [*below(dep), dep]}.values())
        return list(crate.known_below)

    rt.rtlib.Crate.below = below


def sum_of_run(crate):
    """Returns a sum of the files of a crate that only its run reads: what it is given, its data, and what it is to print."""
    found = hashlib.sha256()
    for at, folders, names in os.walk(crate.folder):
        if at == crate.folder:
            folders[:] = [it for it in folders if it not in ("src", "specs", "proofs", "must-fail", "out")]
        folders.sort()
        for name in sorted(names):
            with open(f"{at}/{name}", "rb") as it:
                found.update(repr((os.path.relpath(at, crate.folder), name, it.read())).encode())
    return found.hexdigest()


def refusal_of(rt, crate):
    """Returns why rt refuses the text of a crate whether it is proved or not, if it does."""
    code = rt.rtlib.code_of(crate.folder)
    beyond = [it for it, words in rt.REACHES.items() if it not in crate.allowed and re.search(words, code)]
    if beyond:
        return f"{crate.name} names what only the handle {beyond[0]} reaches, and HANDLES does not allow it"
    if re.search(rt.RENAMES, code):
        return f"{crate.name} renames std, or takes it whole"
    if re.search(rt.IGNORED, code):
        return f"{crate.name} has a test under #[ignore]"
    return None


def pack(as_is):
    """Starts to write what is to be proved, as an archive: the last commit, or the files as they stand."""
    words = ["git", "-C", TOP, "archive", "HEAD"]
    if as_is:
        no_out = ["--anchored", "--no-wildcards-match-slash", "--exclude=crates/*/out"]
        words = ["tar", "-c", "-C", TOP, *no_out, "crates.txt", "HANDLES", "crates"]
    return subprocess.Popen(words, stdout=subprocess.PIPE)


def kind_of(path):
    """Returns whether a path is a file, a folder, a link or nothing."""
    with contextlib.suppress(OSError):
        return stat.S_IFMT(os.lstat(path).st_mode)
    return None


def remove(path):
    """Removes a file or a folder with all that is in it."""
    if kind_of(path) == stat.S_IFDIR:
        shutil.rmtree(path)
    else:
        os.remove(path)


def unpack(folder, as_is):
    """Brings what is to be proved into the folder. What was built there of a crate stays."""
    os.makedirs(f"{folder}/repo/.git", exist_ok=True)
    with tempfile.TemporaryDirectory(dir=folder) as room:
        packed = pack(as_is)
        unpacked = subprocess.run(["tar", "-x", "-C", room], stdin=packed.stdout).returncode
        packed.stdout.close()
        if packed.wait() or unpacked:
            sys.exit(f"tools/prove: the files to prove can't be read, or not be written in {folder}")
        for at, folders, names in os.walk(f"{folder}/repo"):
            inside = os.path.relpath(at, f"{folder}/repo")
            folders[:] = [it for it in folders if not re.fullmatch(r"\./\.git|crates/\w+/out", f"{inside}/{it}")]
            for name in [*names, *folders]:
                if kind_of(f"{room}/{inside}/{name}") != kind_of(f"{at}/{name}"):
                    remove(f"{at}/{name}")
            folders[:] = [it for it in folders if os.path.isdir(f"{at}/{it}")]
        subprocess.run(["cp", "-a", f"{room}/.", f"{folder}/repo"], check=True)


def seconds_of_crates():
    """Reads the table of figures."""
    with open(f"{TOP}/docs/DEVELOPING.md", encoding="utf-8") as it:
        return {name: int(count) for name, count in re.findall(r"(?m)^\| `(\w+)` \| \d+ \| (\d+) \|", it.read())}


def chains(crates):
    """Returns for each crate how long the longest chain is that begins with it."""
    seconds, longest = seconds_of_crates(), {}
    for crate in sorted(crates, key=lambda it: -len(it.below())):
        longest[crate.name] = longest.get(crate.name, 0) + seconds.get(crate.name, UNKNOWN_SECONDS)
        for dep in crate.deps:
            longest[dep.name] = max(longest.get(dep.name, 0), longest[crate.name])
    return longest


def next_ones(ready, running, lanes, killed):
    """Returns the crates that begin now: one whose proof was killed begins when no other goes on, and none beside it."""
    if any(it.name in killed for it, _ in running.values()):
        return []
    others = [it for it in ready if it.name not in killed]
    if not others and not running:
        return ready[:1]
    return others[: max(0, lanes - len(running))]


class Place:
    """A folder with a copy of the repository, in which one call at a time proves crates."""

    def __init__(self, folder, as_is, anew=False, runs=True):
        self.folder, self.root, self.runs = os.path.abspath(folder), f"{os.path.abspath(folder)}/repo", runs
        try:
            self.hold()
        except OSError as it:
            sys.exit(f"tools/prove: no file can be written in {self.folder}: {it.strerror}")
        self.rt = load_rt()
        below_once(self.rt)
        unpack(self.folder, as_is)
        os.chdir(self.root)
        self.rt.Crate.cuts_libraries = True
        self.rt.Crate.allowed = self.rt.handles_of(self.root)
        self.every = self.rt.crates_of(self.root)
        self.kept = self.rt.Kept(self.every, anew)
        self.stamps, self.notes = {}, {} if anew else self.read_notes()
        for it in self.every:
            self.rt.stamp_of(it, self.stamps)

    def hold(self):
        """Makes the folder if need be, and waits until no other call works in it."""
        is_new = not os.path.isdir(self.folder) or not os.listdir(self.folder)
        if not is_new and not os.path.isfile(f"{self.folder}/lock"):
            sys.exit(f"tools/prove: {self.folder} has files that are none of tools/prove: name a new folder")
        os.makedirs(self.folder, exist_ok=True)
        self.lock = open(f"{self.folder}/lock", "w", encoding="utf-8")
        os.makedirs(f"{self.folder}/logs", exist_ok=True)
        try:
            fcntl.flock(self.lock, fcntl.LOCK_EX | fcntl.LOCK_NB)
        except BlockingIOError:
            print(f"tools/prove: another call works in {self.folder}; waiting for it", file=sys.stderr, flush=True)
            fcntl.flock(self.lock, fcntl.LOCK_EX)

    def wanted(self, names):
        """Returns the crates of these names and those below them, or all crates where none is named."""
        lacking = sorted(set(names) - {it.name for it in self.every})
        if lacking:
            sys.exit(f"tools/prove: crates.txt has no crate {lacking[0]}")
        found = {it.name for crate in self.every if crate.name in names for it in [crate, *crate.below()]}
        return [it for it in self.every if not names or it.name in found]

    def crate(self, name):
        """Returns the crate of this name."""
        return self.wanted([name])[-1]

    def check(self, crate, words, kept):
        """Returns the words of a check over the libraries of this folder, which keeps what it checked in another one, and
        ends when this script does."""
        os.makedirs(kept, exist_ok=True)
        made = crate.words(["--jobs", "1", *words], keeps=False)
        return [*self.rt.rtlib.guarded(), self.rt.rtlib.RATTLE, "check", *made, "--incremental", kept]

    def default_lanes(self):
        """Returns how many proofs go on at once: one a processor and one more where there are several, since a proof often
        waits for one below it, as far as there is memory for each."""
        count = self.rt.processors()
        return max(1, min(count + 1 if count > 1 else 1, self.rt.free() // BYTES_EACH))

    def jobs_of_first(self, count, lanes):
        """Returns how many parts of a crate are proved at once on which the longest chain stands, where so many crates are
        proved at once: it has the processors that are left."""
        return max(1, min(lanes, self.rt.processors()) - count + 1)

    # ---- what is noted of crates that are proved

    def read_notes(self):
        """Returns what is noted of each crate that was proved here: a file that can't be read counts as none."""
        with contextlib.suppress(OSError, ValueError), open(f"{self.folder}/proved.json", encoding="utf-8") as it:
            found = json.load(it)
            return found if isinstance(found, dict) else {}
        return {}

    def write_notes(self):
        with open(f"{self.folder}/proved.json.new", "w", encoding="utf-8") as it:
            json.dump(self.notes, it)
        os.replace(f"{self.folder}/proved.json.new", f"{self.folder}/proved.json")

    def made(self, crate):
        """Returns the files that were built of a crate, each with what changes where another one takes its place or it is
        written to."""
        found = []
        for it in self.kept.made(crate, False):
            st = os.stat(f"{crate.folder}/out/{it}")
            found.append([it, st.st_ino, st.st_size, st.st_mtime_ns])
        return found

    def is_here(self, crate):
        """Whether the crate was proved in this folder, and run where runs are asked for, and all of that is still the
        same."""
        note = self.notes.get(crate.name)
        if not isinstance(note, dict) or note.get("stamp") != self.stamps[crate.name]:
            return False
        made = self.made(crate)
        if note.get("made") != made or not self.kept.is_whole(crate, False, [it[0] for it in made]):
            return False
        return not self.runs or not crate.is_program or note.get("ran") == sum_of_run(crate)

    def take(self, crate):
        """Takes a crate that was proved here as proved: the sum of its library was noted."""
        self.kept.rlibs[crate.name], self.kept.marks[crate.name] = self.notes[crate.name]["sum"], self.kept.mark(crate)

    def note(self, crate):
        """Notes that a crate is proved, and run where runs are asked for."""
        self.kept.is_built(crate)
        self.notes[crate.name] = {
            "stamp": self.stamps[crate.name],
            "made": self.made(crate),
            "sum": self.kept.rlibs[crate.name],
            "ran": sum_of_run(crate) if self.runs and crate.is_program else None,
        }
        self.write_notes()

    def forget(self, crate):
        """Notes that a crate isn't proved, before it is."""
        if self.notes.pop(crate.name, None):
            self.write_notes()

    def said_of(self, crate):
        """Returns what was said of a crate when it was proved."""
        with contextlib.suppress(OSError), open(f"{self.folder}/logs/{crate.name}", errors="replace") as it:
            return it.read()
        return ""

    # ---- proving

    def empty(self, crate):
        """Removes what was built of a crate, of this text or another one. A library that is kept is one file under two
        names, so nothing may be written into it."""
        os.makedirs(f"{crate.folder}/out", exist_ok=True)
        for it in ("rlib", *(crate.name + end for end in self.rt.BACKENDS.values())):
            self.rt.clear(f"{crate.folder}/out/{it}")

    def prove(self, crate, jobs):
        """Proves and runs one crate, in a process of its own, and returns the status to end with."""
        rt, kept = self.rt, self.kept
        # (its first call sets a signal's handler, which only the main thread may)
        rt.rtlib.guarded()
        key = kept.key(crate)
        with open(f"{self.folder}/logs/{crate.name}", "w+", encoding="utf-8", errors="replace") as crate.out:
            os.dup2(crate.out.fileno(), 1)
            os.dup2(crate.out.fileno(), 2)
            for look in (rt.rtlib.stop_on_links, lambda it: rt.rtlib.stop_on_unread(it, self.every)):
                look(crate.folder)
            rt.rtlib.stop_on_text(crate, "verdict")
            rt.stop_on_words(crate)
            why = refusal_of(rt, crate)
            if why:
                print(why, flush=True)
                return FAILED
            self.empty(crate)
            is_given = kept.give(crate, False, key)
            if not is_given:
                status = rt.rtlib.fmt(crate.folder, "--check", crate.out) or crate.ci(["--jobs", str(jobs)], False)
                if status:
                    return KILLED if status == -signal.SIGKILL else FAILED
                kept.is_built(crate)
                kept.keep(crate, False, key)
            ends = rt.BACKENDS.values() if crate.is_program and self.runs else ()
            made = [it for it in ends if os.path.isfile(f"{crate.folder}/out/{crate.name}{it}")]
            is_well = all([rt.run(crate, False, it) for it in made])
            return FAILED if not is_well else KEPT if is_given else PROVED

    def start(self, crate, is_first, jobs):
        """Starts a proof, and returns its process."""
        print(f"{crate.name} begun", flush=True)
        self.forget(crate)
        child = os.fork()
        if child:
            return child
        status = FAILED
        try:
            os.nice(0 if is_first else 5)
            status = self.prove(copy.copy(crate), jobs)
        except SystemExit:
            pass
        except BaseException:
            traceback.print_exc()
        finally:
            os._exit(status)

    def prove_all(self, crates, lanes=None):
        """Proves crates, tells of each, and returns the names of those that failed or stand on one."""
        lanes = lanes or self.default_lanes()
        running, failed, killed = {}, [], set()
        rank = chains(crates)
        left = sorted((it for it in crates if not self.is_here(it)), key=lambda it: -rank[it.name])
        for it in [it for it in crates if it not in left]:
            self.take(it)
            print(f"{it.name} proved before", flush=True)
        while left or running:
            lost = [it for it in left if any(dep.name in failed for dep in it.deps)]
            for it in lost:
                print(f"{it.name} not proved: it stands on one that failed", flush=True)
            failed += [it.name for it in lost]
            left = [it for it in left if it not in lost]
            open_names = {it.name for it in left} | {it.name for it, _ in running.values()}
            ready = [it for it in left if not any(dep.name in open_names for dep in it.deps)]
            begins = next_ones(ready, running, lanes, killed)
            jobs = self.jobs_of_first(len(begins) + len(running), lanes)
            for it in begins:
                is_first = all(rank[it.name] >= rank[other.name] for other, _ in running.values())
                has_more = is_first and it.name not in killed
                running[self.start(it, is_first, jobs if has_more else 1)] = it, time.time()
                left.remove(it)
            if running:
                child, status, used = os.wait4(-1, 0)
                crate, begun = running.pop(child)
                came_to = os.WEXITSTATUS(status) if os.WIFEXITED(status) else KILLED
                took = f"{used.ru_utime + used.ru_stime:.0f} processor seconds, {time.time() - begun:.0f} in all"
                print(f"{crate.name} {TOLD.get(came_to, TOLD[FAILED])}: {took}", flush=True)
                if came_to in (PROVED, KEPT):
                    self.note(crate)
                elif came_to == KILLED and crate.name not in killed:
                    killed.add(crate.name)
                    left.append(crate)
                else:
                    failed.append(crate.name)
                    print(self.said_of(crate), end="", flush=True)
        return failed
