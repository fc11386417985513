"""Small changes of the kind that a tired engineer makes, each of one line of a function."""
import collections
import random
import re


def other(*words):
    """Each of the words for each other of them."""
    return [(re.escape(a) + r"(?!\w)", b) for a in words for b in words if a != b]


def number_by(step):
    return lambda found: str(int(found.group(0)) + step)


NAME = r"[a-z_]\w*(?:\.\w+)*"
LITERAL = r"(?<![\w.\"'\[])\d+(?=[;,\s)\]]|$)"
REFUSALS = [
    "QOutsideItsRange", "ThreadsOutsideTheirRange", "NoSuchApplication", "ShareOutsideItsRange", "PeriodTooLong", "LessThanATick", "SharesAboveQ",
    "NoSuchThread", "NotItsTick", "AfterAnArrival", "TooManyJobs", "BeforeTheClock", "BeyondTheEnd", "CutShort", "UnknownKind", "NotInItsPlace",
    "RowTooShort",
]

# kind of change, and its patterns with what takes their place
KINDS = {
    "comparison": [
        (r" < ", " <= "), (r" <= ", " < "), (r" > ", " >= "), (r" >= ", " > "), (r" == ", " != "), (r" != ", " == "),
    ],
    "operand": [
        (rf"\b(\w+)\(({NAME}), ({NAME})\)", r"\1(\3, \2)"), (rf"\b(\w+)\(({NAME}), ({NAME}),", r"\1(\3, \2,"),
        (r"\.e\b", ".w"), (r"\.w\b", ".e"), (r"(?<=: )w,", "e,"), (r"(?<=: )e,", "w,"),
        (r"\.share\b", ".period"), (r"\.period\b", ".share"), (r" \+ ", " - "), (r" - ", " + "), (r" \* ", " + "),
        (r"\bdue\b", "t.w"), (r"\blow\b", "high"), (r"\bend\b", "start"), (r"\bused\b", "at"), (r"\bat\b", "used"),
        (r"\bsince\b", "until"), (r"\buntil\b", "since"), (r"\bleft\b", "all"),
    ],
    "left out": [(r"^(\s*)[\w.\[\] ]+ \+?= [^;{}]+;$", r"\1")],
    "phase": other("Phase::Inactive", "Phase::Contending", "Phase::NonContending"),
    "order": other("Ordering::Less", "Ordering::Equal", "Ordering::Greater"),
    "end": other("How::Over", "How::Idle", "How::Open"),
    "application": [
        (r"\bfree\[own\]", "free[0]"), (r"\bfree\[a\]", "free[0]"), (r"\bbest\[a\]", "best[0]"),
        (r"\ba != own\b", "a == own"), (r"\by\.app\b", "x.app"), (r"\bt\.app\b", "0"),
        (r"\b[xz]\.app(?= as )", "0"), (r"\bcs\[a\]", "cs[0]"), (r"\bcs\[t\.rows\[\w+\]\.app as usize\]", "cs[0]"),
    ],
    # the refusal of the number before or after it
    "refusal": [
        (rf"Refusal::{REFUSALS[i]}\b", f"Refusal::{REFUSALS[j]}") for i in range(17) for j in (i - 1, i + 1) if 0 <= j < 17
    ],
    "loop": [
        (r"(?<= in )0\.\.", "1.."), (r"(?<= in 0\.\.)([\w.:]+)(?= \{)", r"\1 - 1"), (r"\[\.\.([\w.]+)\]", r"[1..\1]"), (r" \+= 1;", " += 2;"),
    ],
    "constant": [
        (LITERAL, number_by(1)), (LITERAL, number_by(-1)), (r"Table::NOBODY", "0"), (r"Table::NOBODY", "Table::APPS"),
        (r"Table::APPS\b(?!\])", "Table::MAX_THREADS"), (r"Table::MAX_\w+", "1"),
    ],
    "condition": [
        (r"(?<=if )(?!let )([^{!]+)(?= \{)", r"!(\1)"), (r"(?<=if )!", ""), (r" && ", " || "),
        (r"\btrue\b", "false"), (r"\bfalse\b", "true"), (r"^(\s*)!", r"\1"),
    ],
    "place": [
        (rf"(?<=\w)\[({NAME})\]", r"[\1 * 0]"), (r"\[at\]", "[at + 1]"), (r"\[at \+ 1\]", "[at]"), (r"\bk\b", "at"),
        (r"\bmut (\w+) = from;", r"mut \1: usize = 0;"),
    ],
}
# lines that are no part of a function's body
OUTSIDE = re.compile(r"\s*(//|#|\}|use |ghost |requires|ensures|fn |pub |mod |struct |impl |const )|\s*$")


def sites(root, crate, files, of_types):
    """Every change in these files of a crate: file, line number, kind, old line, new line. A crate of types has constants only."""
    for path in sorted((root / "crates" / crate / "src").glob(files)):
        for number, text in enumerate(path.read_text().splitlines(), 1):
            if "pub const" not in text if of_types else OUTSIDE.match(text):
                continue
            code, mark, comment = text.partition(" //")
            for kind, changes in KINDS.items():
                for pattern, by in changes:
                    if of_types and pattern != LITERAL:
                        continue
                    for found in re.finditer(pattern, code):
                        put = by(found) if callable(by) else found.expand(by)
                        new = code[:found.start()] + put + code[found.end():]
                        if new != code and "-1" not in put:
                            yield str(path.relative_to(root)), number, kind, text, new + mark + comment


def drawn(root, crate, files, seed, of_types):
    """All changes in these files of a crate in the order in which they are tried: the kinds in turn, each kind in random order."""
    kinds = {}
    seen = set()
    for change in sites(root, crate, files, of_types):
        file, line, kind, _, new = change
        if (file, line, new) not in seen:
            seen.add((file, line, new))
            kinds.setdefault(kind, []).append(change)
    chance = random.Random(seed)
    for found in kinds.values():
        chance.shuffle(found)
    waiting = collections.deque(kinds[kind] for kind in sorted(kinds))
    while waiting:
        found = waiting.popleft()
        yield found.pop()
        if found:
            waiting.append(found)
