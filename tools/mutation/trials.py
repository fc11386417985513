"""Copies of the repository in which a change is proved, or built with no proof and tested."""
import os
import pathlib
import re
import shutil
import signal
import subprocess

import copies

# what a program writes of a trace, and the program
PROGRAMS = {"listing": "bollardine", "report": "capacity"}
# the code that the report has for itself; all other code is tried by the listing
OF_REPORT = ("crates/accounts/", "crates/report/", "crates/capacity/", "crates/text/src/report.rt")
# the seed and the number of the random traces
RANDOM = ("7", "600")
# a crate that holds no function is judged by the crate that holds its constants to the rules
JUDGE = {"quantities": "promises"}
ACCEPTED = "accepted"
ENDLESS = "does not end"


def kind_of(files):
    """By what the program writes a change of these files is tried."""
    return "report" if any(file.startswith(OF_REPORT) for file in files) else "listing"


def run(words, folder, seconds=None, **more):
    """The exit status, None where the time was not enough, and what was said. What it started ends with it."""
    pipes = {"stdin": subprocess.DEVNULL, "stdout": subprocess.PIPE, "stderr": subprocess.STDOUT}
    with subprocess.Popen(words, cwd=folder, start_new_session=True, **pipes, **more) as process:
        try:
            said, _ = process.communicate(timeout=seconds)
        except BaseException as error:
            os.killpg(process.pid, signal.SIGKILL)
            if not isinstance(error, subprocess.TimeoutExpired):
                raise
            return None, ""
    return process.returncode, said.decode(errors="replace")


def keep_what_is_linked(kit, kept):
    """The toolchain once more, as links, with a linker that keeps a copy of what it links.

    rt try compiles with no proof and with checks, runs what it made and does not give it away.
    """
    home = pathlib.Path(shutil.which("rt")).resolve().parent.parent
    linker = kit / "toolchain/bin/ld.lld"
    for folder, without in ((".", ("bin", "toolchain")), ("bin", ("rt", "rtlib.py")), ("toolchain", ("bin",)), ("toolchain/bin", ("ld.lld",))):
        (kit / folder).mkdir(parents=True, exist_ok=True)
        for path in (home / folder).iterdir():
            if path.name not in without:
                (kit / folder / path.name).symlink_to(path)
    # rt takes the toolchain in whose folder it lies
    for name in ("rt", "rtlib.py"):
        shutil.copy(home / "bin" / name, kit / "bin")
    linker.write_text(f"""#!/bin/sh
"{home / 'toolchain/bin/ld.lld'}" "$@" || exit $?
while [ "$1" != -o ]; do shift; done
cp "$2" "{kept}/$(ls "{kept}" | wc -l)"
""")
    linker.chmod(0o755)


class Place:
    """One copy to prove in, with what was proved so far, and one to build in with no proof."""

    def __init__(self, root, folder):
        self.root = root
        self.folder = folder
        self.proved = folder / "proved"
        copies.copied(root, self.proved, copies.lines(root))
        self.plain = folder / "plain"
        copies.copied(root, self.plain, copies.lines(root), copies.PARTS)
        self.kept = folder / "kept"
        self.kit = folder / "kit"
        keep_what_is_linked(self.kit, self.kept)

    def wrong_as_it_is(self, kind):
        """What the tests say of the program that writes this while nothing is changed; nothing where all is well."""
        said = self.tests(kind)
        return f"the program {PROGRAMS[kind]} is not built" if said is None else "; ".join(filter(None, said.values()))

    def put(self, texts):
        """Puts the texts, by file, into both copies and gives back those that stood there."""
        before = {file: (self.proved / file).read_text() for file in texts}
        for file, text in texts.items():
            (self.proved / file).write_text(text)
            (self.plain / file).write_text(text)
        return before

    def built(self, program):
        """The program as it is compiled with no proof; None where it is no program."""
        shutil.rmtree(self.kept, ignore_errors=True)
        self.kept.mkdir()
        # of the run on an interpreter, which comes first, only the beginning
        status, said = run([self.kit / "bin/rt", "try", "--steps", "1000", "--seconds", "1"], self.plain / "crates" / program, 120)
        made = sorted(self.kept.iterdir())
        if made:
            return shutil.copy(made[-1], self.folder / program)
        if status == 1 and "error[" in said:
            return None
        raise RuntimeError(f"rt try makes no program {program} and ends with {status}: {said}")

    # ---- the prover

    def prover(self, crate):
        """Whether the prover refuses, None where the change is no program, and what is said of it."""
        status, said = run(["rt", "check", "--jobs", "1"], self.proved / "crates" / JUDGE.get(crate, crate))
        if status == 0:
            return False, ACCEPTED
        if status == 1 and "error[" in said:
            return None, ""
        return (True, unproved(said)) if status == 1 else (False, f"NOT TOLD: rt ends with {status}")

    # ---- the tests

    def tests(self, kind):
        """What the tests say of the program that writes this: None where there is none."""
        program = self.built(PROGRAMS[kind])
        if program is None:
            return None
        stored = self.stored(kind, program)
        if ENDLESS in stored:
            return {"stored": stored, "random": "", "limits": ""}
        return {"stored": stored, "random": self.random(kind, program), "limits": self.limits() if kind == "listing" else ""}

    def limits(self):
        """The first line of the program limits that differs from what document 01 says."""
        status, said = run([self.built("limits")], self.folder, 20)
        if status is None:
            return ENDLESS
        right = (self.root / "crates/limits/stdout").read_text().splitlines()
        for line, there in zip(right, said.splitlines() + [""]):
            if line != there:
                return line
        return ""

    def stored(self, kind, program):
        """How many stored listings or reports differ, and the first of them."""
        wrong = []
        for trace in sorted((self.root / "traces").glob("*.trace")):
            try:
                with open(trace, "rb") as given:
                    written = subprocess.run([program], stdin=given, stdout=subprocess.PIPE, stderr=subprocess.DEVNULL, timeout=5).stdout
            except subprocess.TimeoutExpired:
                return f"{trace.stem} {ENDLESS}"
            if written != trace.with_suffix("." + kind).read_bytes():
                wrong.append(trace.stem)
        if wrong:
            return f"{len(wrong)}: {wrong[0]}"
        # all are right by standard input; what is left is a file by its name
        worked = self.root / "traces/worked"
        _, said = run(["sh", "-c", '"$0" "$1" <&-', program, worked.with_suffix(".trace")], self.folder, 5)
        return "" if said == worked.with_suffix("." + kind).read_text() else "1: worked by its name"

    def random(self, kind, program):
        """Which random trace is the first whose listing or report differs from that of the second program."""
        second = self.root / "target/second/release/second"
        status, said = run([second, "compare", kind, program, *RANDOM], self.folder, 60)
        if status == 0:
            return ""
        found = re.search(r"index (\d+)", said)
        return f"trace {found.group(1)}" if found else ENDLESS


def unproved(said):
    """The function, and the first fact of it that is not proved."""
    for pattern in (r"^(?:\./)?proofs/([\w/]+)/\w+\.antt:\d+:\d+: error: `([^`]+)`", r"^fn \w+::(\S+): no proof: .*`search` did not prove `([^`]+)`"):
        found = re.search(pattern, said, re.M)
        if found:
            return f"{found.group(1).replace('::', '/')}: {found.group(2)}"
    found = re.search(r"^fn \w+::(\S+): (?:not proved|no proof)", said, re.M)
    return found.group(1).replace("::", "/") if found else "refused"
