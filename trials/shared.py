"""What the runners of trials share: edits of definitions, the prover over a copy, and results.

A folder of trials has files NAME.edit, each with lines '# SENTENCE', 'law: ', 'clause: ' and 'file: ', and then lines
'old: ' with whole lines of that file, which it has once, each group followed by lines 'new: '."""
import glob
import os
import re
import resource
import shutil
import subprocess
import sys
import tempfile
import zlib

ROOT = os.path.dirname(os.path.dirname(os.path.realpath(__file__)))
RLIB = f"{ROOT}/crates/{{0}}/out/rlib/{{0}}.rlib"
HEAD = "machine\tkind\tlaw\tclause\tverdict\tseconds\tcheck\n"


def read_text(path):
    with open(path, encoding="utf-8") as file:
        return file.read()


def write_text(path, text):
    os.makedirs(os.path.dirname(path), exist_ok=True)
    with open(path, "w", encoding="utf-8") as file:
        file.write(text)


def read_crates():
    """Returns the crates that crates.txt lists, each with those of the repository that it names."""
    lines = [line.split("#")[0].partition(":") for line in read_text(f"{ROOT}/crates.txt").split("\n")]
    found = {name.split()[0]: below.split() for name, colon, below in lines if colon}
    return {name: [it for it in below if it in found] for name, below in found.items()}


def all_below(name, crates):
    """Returns all crates below one, each behind those that it names."""
    found = []
    for it in crates[name]:
        found += [below for below in all_below(it, crates) + [it] if below not in found]
    return found


def places(errors):
    """Returns where the proofs are rejected themselves, and not for what they rest on."""
    own = [f"{os.path.basename(file)[:-5]}:{line}" for file, line, text in errors if "depend" not in text and "/proofs/" in file]
    return " ".join(dict.fromkeys(own))


class Trials:
    """The trials of a folder, worked in a folder outside of the repository, in which definitions may stand in its crates alone."""

    def __init__(self, here):
        self.here = here
        self.scratch = f"{tempfile.gettempdir()}/trials-{os.getuid()}-{zlib.crc32(here.encode()):08x}"
        self.crates = read_crates()

    def names(self):
        return sorted(os.path.basename(it)[:-5] for it in glob.glob(f"{self.here}/*.edit"))

    def read_edit(self, name):
        """Returns what an edit file says: the law, the clause, and what is changed, as files with old and new lines."""
        said, edits = {}, []
        for line in read_text(f"{self.here}/{name}.edit").splitlines():
            key, rest = ("sentence", line[2:]) if line.startswith("# ") else (line.partition(":")[0], line.partition(":")[2][1:])
            if key in ("sentence", "law", "clause", "file"):
                said[key] = rest
            elif key == "old":
                if not edits or edits[-1][2]:
                    edits.append((said["file"], [], []))
                edits[-1][1].append(rest)
            elif key == "new":
                edits[-1][2].append(rest)
            else:
                sys.exit(f"{name}.edit: a line that is none of '# ', law, clause, file, old, new: {line}")
        if {"sentence", "law", "clause"} - set(said) or not edits:
            sys.exit(f"{name}.edit: no sentence, law, clause or edit")
        return said["law"], said["clause"], edits

    def apply_edits(self, name, edits):
        """Changes the copies of the files in the scratch folder."""
        for file, old, new in edits:
            path, old, new = f"{self.scratch}/{file}", "\n".join(old), "\n".join(new)
            text = read_text(path)
            if f"\n{text}\n".count(f"\n{old}\n") != 1:
                sys.exit(f"{name}.edit: these lines are not in {file} exactly once: {old}")
            write_text(path, f"\n{text}\n".replace(f"\n{old}\n", f"\n{new}\n")[1:-1])

    def copy_sources(self, edits, parts, top, changed=()):
        """Copies these parts of the crates that are checked from their text: those changed or not built, all between these and
        the top one, and the top one."""
        below = all_below(top, self.crates)
        changed = set(changed) | {file.split("/")[0] for file, _, _ in edits} | {it for it in below if not os.path.isdir(RLIB.format(it))}
        names = [it for it in below if it in changed or changed & set(all_below(it, self.crates))] + [top]
        for name in names:
            for part in ("src", "specs", "proofs"):
                shutil.rmtree(f"{self.scratch}/{name}/{part}", ignore_errors=True)
                if part in parts and os.path.isdir(f"{ROOT}/crates/{name}/{part}"):
                    shutil.copytree(f"{ROOT}/crates/{name}/{part}", f"{self.scratch}/{name}/{part}")
        return names

    def check(self, root, only, names):
        """Checks one function of a crate in the scratch folder, with these crates from their text. Returns whether it is
        proved, whatever other lemma of the files that it cites is rejected; the errors as file, line and text, or None
        without a verdict; and the processor seconds."""
        kit = os.path.dirname(subprocess.run(["rt", "doc"], capture_output=True, text=True, check=True).stdout.strip())
        words = [f"{kit}/bin/rattle", "check", "--crate-name", root, "src/lib.rt", "--jobs", "1", "--only", only, "--links", f"{root}=",
                 "--antt-project", f"{kit}/rattle/logic/antt-project.json", "--logic-built", f"{kit}/logic_built",
                 "--incremental", "out/incremental", "-L", f"dependency={kit}/rlibs",
                 "--extern", f"std={kit}/rlibs/std.rlib", "--extern", f"core={kit}/rlibs/core.rlib"]
        for it in all_below(root, self.crates):
            if it in names:
                words += ["--lib", f"{it}:{','.join(['core', 'std'] + self.crates[it])}={self.scratch}/{it}/src/lib.rt"]
            else:
                words += ["--extern", f"{it}={RLIB.format(it)}", "-L", f"dependency={os.path.dirname(RLIB.format(it))}"]
        folder, begun = f"{self.scratch}/{root}", resource.getrusage(resource.RUSAGE_CHILDREN)
        os.makedirs(f"{folder}/out/incremental", exist_ok=True)
        made = subprocess.run(words, cwd=folder, stdout=subprocess.PIPE, stderr=subprocess.STDOUT, text=True, check=False,
                              preexec_fn=lambda: resource.setrlimit(resource.RLIMIT_CPU, (600, 600)))
        used = resource.getrusage(resource.RUSAGE_CHILDREN)
        write_text(f"{self.scratch}/last.log", made.stdout)
        found = re.findall(r"^(\S+?):(\d+):\d+: error: (.*)$", made.stdout, re.M)
        errors = [(os.path.relpath(os.path.join(folder, file), self.scratch), line, text) for file, line, text in found]
        has_verdict = re.search(r"^only=1 proved=[01]\b", made.stdout, re.M) and made.returncode in (0, 1, 3)
        holds = re.search(rf"^fn {root}::{only}: proved", made.stdout, re.M)
        return bool(holds), errors if has_verdict else None, used.ru_utime + used.ru_stime - begun.ru_utime - begun.ru_stime

    def keep(self, name, kind, law, clause, verdict, seconds, fine):
        """Prints a line of results, puts it into the file of results, and returns whether it went as it should."""
        path = f"{self.here}/results.tsv"
        line = "\t".join([name, kind, law, clause, verdict, str(round(seconds)), "as it should" if fine else "NOT SO"])
        print(line, flush=True)
        kept = read_text(path).splitlines()[1:] if os.path.exists(path) else []
        kept = [it for it in kept if it.split("\t")[:2] != [name, kind]] + [line]
        write_text(path, HEAD + "".join(f"{it}\n" for it in sorted(kept)))
        return fine

    def try_proof(self, name, top, changed=()):
        """Tries the proof of the law over the wrong definition: it has to be rejected, in a proof and not in the edit's own file."""
        law, clause, edits = self.read_edit(name)
        names = self.copy_sources(edits, ("src", "specs", "proofs"), top, changed)
        self.apply_edits(name, edits)
        holds, errors, seconds = self.check(top, f"laws::{law}", names)
        own = [it for it in errors or [] if "/specs/" in it[0]]
        verdict = "no verdict" if errors is None else "STILL PROVED" if holds else "BAD EDIT" if own else f"rejected at {places(errors)}"
        return self.keep(name, "proof", law, clause, verdict, seconds, verdict.startswith("rejected"))


def try_definitions(here, top, names):
    """Tries these wrong definitions of a folder, or all, against the laws of a crate, each of which has to be proved over the right
    ones. Returns a status: 0 if the proof of each trial's law was rejected."""
    trials = Trials(here)
    names = names or trials.names()
    edits = [trials.read_edit(it) for it in names]
    for law in sorted({law for law, _, _ in edits}):
        below = trials.copy_sources([edit for its, _, own in edits if its == law for edit in own], ("src", "specs", "proofs"), top)
        if not trials.check(top, f"laws::{law}", below)[0]:
            sys.exit(f"{law} is not proved over the right definitions: {trials.scratch}/last.log")
    return 0 if all([trials.try_proof(it, top) for it in names]) else 1
