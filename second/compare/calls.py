"""Writes a crate file that claims, for random direct calls, that the definitions give the program's answers and states.

Usage: calls.py PROGRAM SEED... > Compare.antt
PROGRAM is the built second implementation; the calls are `PROGRAM calls SEED`.
"""

import subprocess
import sys

HEADER = """\
use Rattle.std.specs.Prelude.{◌≡◌, refl, Bool, true, false, cond, List, [], ◌∷◌, ◌++◌, ℕ, zero, suc, ℤ, pos, negsuc, take, drop}
use Rattle.lists.specs.Sum.{sum_by}
use Rattle.lists.specs.MapTo.{map_to}
use Rattle.rules.specs.Threads.{State, Thread, Phase, Inactive, Contending, NonContending, Amount, amt, blank, free_share, earliest, lose_at}
use Rattle.rules.specs.Table as table
use Rattle.rules.specs.Table.{Row, Table, Answer, Done, head_answer, row_answer, shares_to, rows_answer, table_answer, opened_to, start, opening}
use Rattle.rules.specs.Completion.{gives, completing, after_completion, completion}
use Rattle.rules.specs.Leaving.{leave, gone}
use Rattle.rules.specs.Arrival.{arrival}
use Rattle.rules.specs.Arrival as arriving
use Rattle.rules.specs.Drop.{head_only, dropped}
use Rattle.rules.specs.Fitting.{fit, fitted}
use Rattle.rules.specs.Choice.{idled}
use Rattle.rules.specs.Charge.{benefits, charged, moved}
use Rattle.rules.specs.Step.{Outcome, Grant, Idle, stepped}
use Rattle.rules.specs.Step as tick
use Rattle.rules.specs.Run.{state_after, row_after, ran}
use Rattle.rules.specs.Calls as calls
use Rattle.rules.specs.Calls.{Call, complete, step, run, apply}

-- a number with its sign: 0 and the number, or 1 and its opposite
abbrev pub of_integer : ℤ → List ℕ
of_integer (pos n) = 0 ∷ n ∷ []
of_integer (negsuc n) = 1 ∷ suc n ∷ []

abbrev pub of_phase : Phase → ℕ
of_phase Inactive = 0
of_phase Contending = 1
of_phase NonContending = 2

abbrev pub of_bool : Bool → ℕ
of_bool b = cond b 1 0

abbrev pub of_thread : Thread → List ℕ
of_thread x = x.app ∷ of_phase x.phase ∷ x.share ∷ x.period ∷ x.jobs ∷ (of_integer x.w.0 ++ of_integer x.e.0)

unfoldable pub of_threads : List Thread → List ℕ
of_threads [] = []
of_threads (x ∷ xs) = of_thread x ++ of_threads xs

-- the state, with the rows that its threads have
abbrev pub of_state : State → List ℕ
of_state s = s.count ∷ s.had ∷ s.q ∷ s.clock.0 ∷ of_bool s.completed ∷ of_bool s.closed ∷ of_threads (take s.count s.threads)

abbrev pub of_answer : Answer → ℕ
of_answer Done = 0
of_answer (table.Refused n) = n

abbrev pub of_outcome : Outcome → List ℕ
of_outcome (Grant i) = 0 ∷ i ∷ []
of_outcome Idle = 0 ∷ 65535 ∷ []
of_outcome (tick.Refused n) = n ∷ []

-- what a call answers, with the lent row
abbrev pub gave : State → Call → List ℕ
gave s (complete i) = of_answer (completion s i).answer ∷ []
gave s (calls.arrive i) = of_answer (arrival s i).answer ∷ []
gave s (calls.drop i) = of_answer (dropped s i).answer ∷ []
gave s step = of_outcome (stepped s).outcome
gave s (run to row) = of_answer (ran s to row).result.answer ∷ (ran s to row).row

-- the answer and the state of each call, then every row of the last state that no thread has
unfoldable pub told : State → List Call → List ℕ
told s [] = of_threads (drop s.count s.threads)
told s (c ∷ cs) = gave s c ++ (of_state (apply s c) ++ told (apply s c) cs)
"""

UNFOLDING = """\
unfolding of_threads told sum_by map_to free_share earliest lose_at head_answer row_answer shares_to rows_answer table_answer \
opened_to start opening gives completing after_completion completion leave gone arriving.arrive arrival head_only dropped \
fit fitted idled benefits charged moved stepped state_after row_after ran"""

PHASES = ["Inactive", "Contending", "NonContending"]
# The numbers of a row that no thread has: five, and W and E with their signs.
BLANK = [0] * 9


def chain(values):
    """A list as the definitions write it."""
    return " ∷ ".join([str(value) for value in values] + ["[]"])


def integer(value):
    """A signed number as the definitions write it."""
    return "(pos %d)" % value if value >= 0 else "(negsuc %d)" % (-value - 1)


def signed(value):
    """A signed number as two that have no sign."""
    return [0, value] if value >= 0 else [1, -value]


def plain(state):
    """The numbers of a state, without signs."""
    numbers = state[:6]
    for i in range(6, len(state), 7):
        numbers = numbers + state[i : i + 5] + signed(state[i + 5]) + signed(state[i + 6])
    return numbers


def written_state(state):
    """A state as the definitions write it, with 64 rows."""
    rows = []
    for i in range(6, len(state), 7):
        app, phase, share, period, jobs, w, e = state[i : i + 7]
        rows.append(
            "(record { app = %d; phase = %s; share = %d; period = %d; jobs = %d; w = amt %s; e = amt %s })"
            % (app, PHASES[phase], share, period, jobs, integer(w), integer(e))
        )
    rows += ["blank"] * (64 - len(rows))
    count, had, q, clock, completed, closed = state[:6]
    truth = ["false", "true"]
    return (
        "record { threads = %s; count = %d; had = %d; q = %d; clock = record { 0 = %d }; completed = %s; closed = %s }"
        % (chain(rows), count, had, q, clock, truth[completed], truth[closed])
    )


def written_call(words):
    """A call as the definitions write it."""
    if words[0] == "step":
        return "step"
    if words[0] == "run":
        return "run %s (%s)" % (words[1], chain(words[2:]))
    return "%s %s" % ({"arrive": "calls.arrive", "drop": "calls.drop"}.get(words[0], words[0]), words[1])


def claim(name, left, right):
    """One claim."""
    return "\n%s : %s ≡ (%s)\n%s\n%s = refl\n" % (name, left, chain(right), UNFOLDING, name)


def claims(program, seed):
    """The claims for the table and the calls of one seed."""
    text = subprocess.run([program, "calls", seed], capture_output=True, check=True, text=True).stdout
    lines = [line.split() for line in text.splitlines()]
    table = [int(word) for word in lines[0][1:]]
    rows = [table[i : i + 3] for i in range(1, len(table), 3)]
    written = chain("(record { app = %d; share = %d; period = %d })" % tuple(row) for row in rows)
    head = "(record { q = %d; threads = %d; rows = %s })" % (table[0], len(rows), written)
    answer = int(lines[1][1])
    out = claim("a%s" % seed, "of_answer (opening 100 %s).answer ∷ []" % head, [answer])
    if answer != 0:
        return out
    begin = [int(word) for word in lines[2][1:]]
    if begin[1] == 64 and begin[3:6] == [0, 0, 0]:
        first = "start 100 " + head
        out += claim("b%s" % seed, "of_state (%s)" % first, plain(begin))
    else:
        first = written_state(begin)
    calls, told = [], []
    for name, *words in lines[3:]:
        if name == "call":
            calls.append("(%s)" % written_call(words))
        elif name == "gave":
            told += [int(word) for word in words]
        else:
            told += plain([int(word) for word in words])
    told += BLANK * (64 - begin[0])
    return out + claim("c%s" % seed, "told (%s) (%s)" % (first, chain(calls)), told)


def main():
    program, seeds = sys.argv[1], sys.argv[2:]
    sys.stdout.write(HEADER)
    for seed in seeds:
        sys.stdout.write(claims(program, seed))


main()
