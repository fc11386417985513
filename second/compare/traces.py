"""Writes a crate file that claims, for each of some random traces, that the definition's listing is the program's.

Usage: traces.py PROGRAM small|usual SEED... > Compare.antt
PROGRAM is the built second implementation; the traces are `PROGRAM make SEED`, with `small` after it or not.
"""

import subprocess
import sys

# The definitions that a listing is computed by, module by module.
MODULES = [
    ("lists.specs.Sum", "sum_by"),
    ("lists.specs.MapTo", "map_to"),
    ("rules.specs.Threads", "free_share earliest lose_at"),
    ("rules.specs.Table", "head_answer row_answer shares_to rows_answer opened_to start"),
    ("rules.specs.Completion", "gives completing after_completion completion"),
    ("rules.specs.Leaving", "leave gone"),
    ("rules.specs.Arrival", "arrive arrival"),
    ("rules.specs.Drop", "head_only dropped"),
    ("rules.specs.Fitting", "fit fitted"),
    ("rules.specs.Choice", "idled"),
    ("rules.specs.Charge", "benefits charged moved"),
    ("rules.specs.Step", "stepped"),
    ("rules.specs.Run", "state_after row_after ran"),
    ("rules.specs.Records", "frame_of decoded"),
    ("rules.specs.Reading", "before_ticks ticks_due event_read record_read read"),
    ("rules.specs.Listing", "bytes digits line heading tick_line tick_lines ending list_from listing"),
]


def numbers(values):
    """A list of numbers as the definitions write it."""
    return " ∷ ".join([str(value) for value in values] + ["[]"])


def header(modules):
    """The lines that name what is used."""
    lines = [
        "use Rattle.std.specs.Prelude.{◌≡◌, refl, List, [], ◌∷◌, ◌++◌, ℕ}",
    ]
    for module, names in modules:
        lines.append("use Rattle.%s.{%s}" % (module, ", ".join(names.split())))
    return "\n".join(lines) + "\n"


def claim(program, size, seed):
    """The claim for one trace."""
    words = [program, "make", seed] + (["small"] if size == "small" else [])
    trace = subprocess.run(words, capture_output=True, check=True).stdout
    text = subprocess.run([program, "list"], input=trace, capture_output=True, check=True).stdout
    unfolding = " ".join(names for _, names in MODULES)
    lines = [
        "",
        "t%s : listing (%s) ≡ (%s)" % (seed, numbers(trace), numbers(text)),
        "unfolding " + unfolding,
        "t%s = refl" % seed,
    ]
    return "\n".join(lines) + "\n"


def main():
    program, size, seeds = sys.argv[1], sys.argv[2], sys.argv[3:]
    sys.stdout.write(header(MODULES))
    for seed in seeds:
        sys.stdout.write(claim(program, size, seed))


main()
