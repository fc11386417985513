"""Copies of crates in which a tool checks what it has edited, begun with what checks of the same crates kept.

Each copy is a repository of its own: a crates.txt with the lines of its crates, and these crates. A check there proves again only what
an edit changes, and touches nothing outside. Definitions can also be put many times into one crate, each time edited in another way,
and are then tried in one check.
"""
import concurrent.futures
import contextlib
import fcntl
import hashlib
import os
import pathlib
import queue
import re
import shutil
import subprocess
import tempfile

PARTS = ("src", "specs", "proofs")
KEPT = ("out/rlib", "out/incremental")
# for checks that are run beside each other
ONE = ("--jobs", "1")


def lines(root):
    """The lines of crates.txt, by the name of the crate."""
    listed = [line for line in (root / "crates.txt").read_text().splitlines() if line.partition("#")[0].strip()]
    return {line.split(":")[0].split()[0]: line for line in listed}


def below(root, crates):
    """These crates and all those of the repository that they need, each after those that it needs."""
    listed, found = lines(root), []

    def visit(name):
        for other in listed[name].partition("#")[0].partition(":")[2].split():
            if other in listed and other not in found:
                visit(other)
        if name not in found:
            found.append(name)

    for crate in crates:
        visit(crate)
    return found


def put(one, other):
    """Gives what a check kept a second name, or copies it: a check replaces such a file and never writes into it."""
    if one.endswith(".oantt") or "/out/rlib/" in one:
        with contextlib.suppress(OSError):
            return os.link(one, other)
    return shutil.copy2(one, other)


def copied(root, target, crates, parts=(*PARTS, *KEPT)):
    """Makes a repository of these parts of these crates in the folder target."""
    listed = lines(root)
    for name in crates:
        for part in parts:
            if (root / "crates" / name / part).is_dir():
                shutil.copytree(root / "crates" / name / part, target / "crates" / name / part, copy_function=put)
    (target / "crates.txt").write_text("".join(listed[name] + "\n" for name in crates))


def checked(root, crate, *words):
    """The status and the words of rt check in this repository's crate."""
    done = subprocess.run(["rt", "check", *words], cwd=root / "crates" / crate, stdin=subprocess.DEVNULL, capture_output=True, text=True)
    return done.returncode, done.stdout + done.stderr


def spec_files(root, crate):
    """The spec files of the crate by their stems, in the order of its Lib.antt."""
    specs = root / "crates" / crate / "specs"
    stems = [line.split()[-1] for line in (specs / "Lib.antt").read_text().splitlines() if "mod " in line]
    return {stem: (specs / f"{stem}.antt").read_text() for stem in stems}


def merged(root, folder, variants):
    """Makes a repository in the folder whose crate `tried` has the texts of each variant in modules of its own, and checks it.

    A variant is what spec files are to be, by crate and stem; what they use of crates that it has is its own, and other crates are as they
    are. Answers with rt's status, the errors by the number of the variant, each as crate, stem, line and words, and all that was said.
    """
    inside = [{crate for crate, _ in variant} for variant in variants]
    needed = {name for own in inside for name in below(root, sorted(own)) if name not in own}
    outside = [name for name in lines(root) if name in needed]
    copied(root, folder, outside)
    with open(folder / "crates.txt", "a") as listed:
        listed.write(f"tried: {' '.join(outside)}\n")
    home = folder / "crates/tried"
    (home / "src").mkdir(parents=True)
    (home / "src/lib.rt").write_text("// Definitions only.\n#![tactic(auto)]\n")
    for number, variant in enumerate(variants):
        for (crate, stem), text in variant.items():
            own = "|".join({crate for crate, _ in variant})
            text = re.sub(rf"\bRattle\.({own})\.specs\.", lambda found: f"Rattle.tried.specs.V{number}.{found[1].title()}.", text)
            put_module(home / "specs", (f"V{number}", crate.title(), stem), text)
    status, output = checked(folder, "tried", *ONE)
    errors = {}
    for number, crate, stem, line, said in re.findall(r"^\./specs/V(\d+)/(\w+)/(\w+)\.antt:(\d+):\d+: error: (.*)", output, re.M):
        errors.setdefault(int(number), []).append((crate.lower(), stem, int(line), said))
    return status, errors, output


def put_module(specs, names, text):
    """Writes the module of these names below specs/, and names it in the files above."""
    above = specs / "Lib.antt"
    for depth, name in enumerate(names):
        above.parent.mkdir(parents=True, exist_ok=True)
        line = f"pub mod {name}\n"
        if not above.exists() or line not in above.read_text().splitlines(True):
            with open(above, "a") as listed:
                listed.write(line)
        above = specs.joinpath(*names[:depth], f"{name}.antt")
    above.parent.mkdir(parents=True, exist_ok=True)
    above.write_text(text)


def proved(root, crates):
    """Has these crates proved where they are, over what is kept there; answers with what rt says where one is not."""
    for crate in crates:
        if not any(crate in below(root, [other])[:-1] for other in crates):
            status, output = checked(root, crate)
            if status != 0:
                return f"{crate}: {output}"
    return ""


@contextlib.contextmanager
def room(tool, root):
    """An empty folder to work in. It is the same in each run, since rt notes of each folder what a check kept there; one run at a time has it."""
    place = pathlib.Path(tempfile.gettempdir()).resolve() / f"{tool}-{os.getuid()}-{hashlib.sha256(str(root).encode()).hexdigest()[:12]}"
    place.mkdir(mode=0o700, exist_ok=True)
    if place.stat().st_uid != os.getuid():
        raise SystemExit(f"{tool}: {place} is another account's")
    with open(place / "lock", "w") as lock:
        fcntl.flock(lock, fcntl.LOCK_EX)
        work = place / "work"
        shutil.rmtree(work, ignore_errors=True)
        work.mkdir()
        try:
            yield work
        finally:
            shutil.rmtree(work, ignore_errors=True)


def at_a_time():
    """How many checks are run at a time: what CHECKS says, or one for each processor, as far as each finds memory."""
    if os.environ.get("CHECKS", "").isdigit():
        return max(1, int(os.environ["CHECKS"]))
    free = next(int(line.split()[1]) for line in open("/proc/meminfo") if line.startswith("MemAvailable:"))
    return max(1, min(len(os.sched_getaffinity(0)), free // 3_000_000))


def in_lanes(work, items, attempt):
    """What attempt(folder, item) answers for each item, in their order, as soon as it is known; a folder is one call's alone, and empty."""
    number = at_a_time()
    lanes = queue.Queue()
    for lane in range(number):
        lanes.put(work / f"lane-{lane}")

    def one(item):
        lane = lanes.get()
        try:
            return attempt(lane, item)
        finally:
            shutil.rmtree(lane, ignore_errors=True)
            lanes.put(lane)

    with concurrent.futures.ThreadPoolExecutor(number) as pool:
        yield from zip(items, pool.map(one, items))


def in_batches(work, items, attempt, most):
    """As in_lanes, but attempt(folder, items) answers for several items, at most so many, in one check."""
    number = -(-len(items) // max(at_a_time(), -(-len(items) // most)))
    batches = [items[at : at + number] for at in range(0, len(items), number)]
    for batch, answers in in_lanes(work, batches, attempt):
        yield from zip(batch, answers)
