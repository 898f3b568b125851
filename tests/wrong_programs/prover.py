"""The prover, asked of a crate with changes made in its bodies: what it says of each of them.

It is called as rt calls it, on a copy of the crate. The copy is handed what `rt check` kept, so that only the changed functions are proved
anew; a survivor is tried again from nothing.

A goal and a fact are named after the code that they come from, as `returns-then-n-lt10` after `if n < 10`. So a change may leave a proof
without the names that it cites. It is then given the new names, as the prover tells them, and tried again: what refuses the change is to be
a fact.
"""
import difflib, os, re, shutil, subprocess, tempfile, threading
from collections import namedtuple

LONGEST = 400  # seconds for one run
MENDED = 4  # how often a proof is given new names

# errors: by function, what its own proof files are refused for; goals: by function, those that the prover then asks for;
# facts: by change, what the prover does not find at its function
Run = namedtuple("Run", "verdicts errors goals facts refused said")

# What an error says where a proof only no longer fits the code: a goal has another name or place, there are more or fewer.
MISFIT = re.compile(
    r"that can be named from here|expected type `goal\.|has no field|is not in scope"
    r"|too many arguments|too few arguments|is not a function|needs a function \(or path\) type to bind"
)
FALSE = "allow values at which this goal is false"


class Kit:
    """Where the prover stands, and what each crate of the repository uses."""

    def __init__(self, top):
        self.top = top
        self.home = os.path.dirname(subprocess.check_output(["rt", "doc"], text=True, stdin=subprocess.DEVNULL).strip())
        self.uses, self.checked, self.lock = {}, set(), threading.Lock()
        for line in open(os.path.join(top, "crates.txt")):
            name, _, uses = line.split("#")[0].partition(":")
            if name.strip():
                self.uses[name.split()[0]] = uses.split()

    def below(self, names):
        """These crates of the repository and all that they stand on, in the order of crates.txt."""
        wanted, todo = set(), [n for n in names if n in self.uses]
        while todo:
            name = todo.pop()
            if name not in wanted:
                wanted.add(name)
                todo += [u for u in self.uses[name] if u in self.uses]
        return [n for n in self.uses if n in wanted]

    def crate(self, name):
        return f"{self.top}/crates/{name}"

    def check(self, crate):
        """Has rt prove the crate as it stands, once, and build what it stands on."""
        with self.lock:
            if crate not in self.checked:
                subprocess.run(["rt", "check"], cwd=self.crate(crate), stdin=subprocess.DEVNULL, stdout=subprocess.DEVNULL, check=True)
                self.checked.add(crate)

    def words(self, crate):
        """What the prover is told of the crate, beside what it is to do."""
        words = ["--crate-name", crate, "src/lib.rt", "--extern", f"std={self.home}/rlibs/std.rlib", "-L", f"dependency={self.home}/rlibs"]
        for name in self.uses[crate]:
            place = f"{self.crate(name)}/out/rlib" if name in self.uses else f"{self.home}/rlibs"
            words += ["--extern", f"{name}={place}/{name}.rlib"]
        for name in self.below([crate]):
            words += ["-L", f"dependency={self.crate(name)}/out/rlib"] * (name != crate)
        words += ["--antt-project", f"{self.home}/rattle/logic/antt-project.json", "--logic-built", f"{self.home}/logic_built"]
        return words + ["--jobs", "1", "--links", f"{crate}="]

    def run(self, verb, crate, folder, *words):
        self.check(crate)
        command = [f"{self.home}/bin/rattle", verb, *self.words(crate), *words]
        how = {"text": True, "stdin": subprocess.DEVNULL, "stdout": subprocess.PIPE, "stderr": subprocess.STDOUT, "timeout": LONGEST}
        try:
            return subprocess.run(command, cwd=folder, **how).stdout
        except subprocess.TimeoutExpired:
            return f"no answer in {LONGEST} seconds"


def read_run(text, homes):
    """Of each function what is said of it and its own errors, not those that follow from another; else the changes that are no code."""
    verdicts, errors, goals, facts, refused, last = {}, {}, {}, {}, [], ""
    for line in re.sub(r"\n  +", " ", text).split("\n"):
        if m := re.match(r"fn \w+::(\S+?): (.*)", line):
            last = m[1].replace("::", "/")
            verdicts[last] = m[2]
        elif m := re.match(r"help: `Goals` has no .*; rattle asks for (.*?);", line):
            goals[last] = re.findall(r"`([^`]+)`", m[1])
        elif m := re.match(r"(?:\S*/)?proofs/(\S+)/(?:Answers|Invariants|Proof)\.antt:\d+:\d+: error: (.*)", line):
            if "was not admitted" not in m[2]:
                module, *cycle = m[1].split("+")  # functions that call one another have one proof
                for name in [module + c for c in cycle] or [module]:
                    errors.setdefault(name, []).append(m[2])
        elif m := re.match(r"note: (?:\S*/)?src/(\S+\.rt):(\d+):\d+: (it is not proved that .*)", line):
            for c in at(homes, m[1], int(m[2])):
                facts.setdefault(c.name, []).append(m[3])
        elif m := re.match(r"(?:\S*/)?src/(\S+\.rt):(\d+):\d+: (error\[.*)", line):
            refused += [(c, m[3]) for c in at(homes, m[1], int(m[2]))]
    return Run(verdicts, errors, goals, facts, refused, text.strip().split("\n")[-1])


def at(homes, file, line):
    return [c for c, place, first, last in homes if file == place and first <= line <= last]


def made(text, changes):
    """The text with the changes made, and for each the lines of its function then."""
    homes, moved = [], 0
    for c in sorted(changes, key=lambda c: c.change.start):
        start, end = c.change.start + moved, c.change.end + moved
        text = text[:start] + c.change.new + text[end:]
        first = text.count("\n", 0, c.home[0] + moved) + 1
        moved += len(c.change.new) - (c.change.end - c.change.start)
        homes.append((c, c.file, first, text.count("\n", 0, c.home[1] + moved) + 1))
    return text, homes


class Room:
    """A folder to work in, and in it a copy of the crate for each run."""

    def __init__(self, kit):
        self.kit, self.top, self.count, self.lock = kit, tempfile.mkdtemp(prefix="wrong-programs-"), 0, threading.Lock()
        self.codes = {}

    def fresh(self):
        with self.lock:
            self.count += 1
            folder = os.path.join(self.top, str(self.count))
        os.makedirs(folder)
        return folder

    def copy(self, crate, changes, renamed):
        """The crate with the changes made and names in the proofs of functions replaced, in a folder of its own, and where their functions stand."""
        folder, homes = self.fresh(), []
        for part in ("src", "specs", "proofs"):
            if os.path.isdir(f"{self.kit.crate(crate)}/{part}"):
                shutil.copytree(f"{self.kit.crate(crate)}/{part}", f"{folder}/{part}")
        for file in {c.file for c in changes}:
            with open(f"{folder}/src/{file}") as f:
                text, there = made(f.read(), [c for c in changes if c.file == file])
            homes += there
            with open(f"{folder}/src/{file}", "w") as f:
                f.write(text)
        for function, names in renamed.items():
            for file in ("Answers", "Invariants"):
                rename(f"{folder}/proofs/{function}/{file}.antt", names)
        return folder, homes

    def prove(self, crate, changes, renamed=None):
        folder, homes = self.copy(crate, changes, renamed or {})
        self.kit.check(crate)
        shutil.copytree(f"{self.kit.crate(crate)}/out/incremental", f"{folder}/kept")
        text = self.kit.run("check", crate, folder, "--incremental", "kept")
        shutil.rmtree(folder)
        return read_run(text, homes)

    def build(self, crate, changes, renamed):
        """The same from nothing, and the code that the compiler makes of the crate, where it is proved."""
        folder, homes = self.copy(crate, changes, renamed)
        text = self.kit.run("build", crate, folder, "-o", f"{crate}.rlib")
        code = f"{folder}/{crate}.rlib/toolchain/mir.json"
        code = open(code).read() if os.path.isfile(code) else None
        shutil.rmtree(folder)
        return read_run(text, homes), code

    def code(self, crate):
        with self.lock:
            known = crate in self.codes
        if not known:
            _, code = self.build(crate, [], {})
            with self.lock:
                self.codes[crate] = code
        return self.codes[crate]


def rename(file, names):
    if os.path.isfile(file):
        with open(file) as f:
            text = f.read()
        for old, new in names:
            text = re.sub(rf"(?<![\w-]){re.escape(old)}(?![\w-])", new, text)
        with open(file, "w") as f:
            f.write(text)


def new_names(run, function):
    """The names that a function's proof lacks, each with the nearest that there is."""
    found = []
    for error in run.errors.get(function, []):
        if m := re.search(r"has no field `([^`]+)` \(nearest: \.([^),]+)", error):
            found.append((m[1], m[2]))
        elif m := re.search(r"Goals` has no `([^`]+)` that can be named", error):
            near = difflib.get_close_matches(m[1], run.goals.get(function, []), 1)
            found += [(m[1], it) for it in near]
    return list(dict.fromkeys(found))


def end_of(c, run):
    """How one change ended, and the first thing that was said of it."""
    own = [e for f in sorted(c.touches) for e in run.errors.get(f, [])]
    facts = sorted(run.facts.get(c.name, []), key=lambda said: FALSE not in said)
    misfits = [e for e in own if MISFIT.search(e)]
    said = [run.verdicts.get(f, "") for f in sorted(c.touches)]
    if facts and (FALSE in facts[0] or not misfits):
        return "refused", facts[0]
    if own:
        return ("misfit", misfits[0]) if misfits else ("refused", own[0])
    if not run.verdicts or any("could not tell" in s for s in said):
        return "unclear", run.said
    if untold := sorted(c.touches - run.verdicts.keys()):
        return "unknown", f"the prover says nothing of {c.crate}/{untold[0]}"
    missing = [s for s in said if not s.startswith("proved")]
    if missing:
        return ("refused" if "did not prove" in missing[0] else "misfit"), missing[0]
    return "survived", ""


def mended(room, c, run):
    """A change whose proof lacks names, tried again with those that there are: its last run, and the names that were given."""
    renamed = {}
    for _ in range(MENDED):
        lacking = {f: names for f in c.touches if (names := new_names(run, f))}
        if not lacking or end_of(c, run)[0] != "misfit":
            break
        for f, names in lacking.items():
            renamed.setdefault(f, []).extend(names)
        run = room.prove(c.crate, [c], renamed)
    return run, renamed


def confirmed(room, c, renamed):
    """How a change that seemed to survive ended, alone and from nothing."""
    run, code = room.build(c.crate, [c], renamed)
    if run.refused:
        return "no program", run.refused[0][1]
    if code is not None and code == room.code(c.crate):
        return "no program", "the compiler makes the same code of it"
    end, said = end_of(c, run)
    return ("unclear", run.said) if end == "survived" and not run.said.startswith("logic=proved") else (end, said)


def settled(room, group):
    """Of changes in different functions of one crate: each, its end and the first thing that was said of it."""
    ends = []
    while group:
        run = room.prove(group[0].crate, group)
        faults = {c.name: said for c, said in reversed(run.refused)}
        if not faults:
            break
        ends += [(c, "no program", faults[c.name]) for c in group if c.name in faults]
        group = [c for c in group if c.name not in faults]
    for c in group:
        its_run, renamed = mended(room, c, run)
        end, said = end_of(c, its_run)
        ends.append((c, *(confirmed(room, c, renamed) if end in ("survived", "unclear") else (end, said))))
    return ends
