"""Wrong rules of tools/wrong-rules, by name, each with the same wrong change of the code: file, old text, new text."""

THREAD = "crates/threads/src/thread.rt"
EVENTS = "crates/events/src/lib.rt"
RECEIVING = "crates/threads/src/receiving.rt"
STEP = "crates/schedule/src/step.rt"
PASSES = "crates/schedule/src/passes.rt"
TABLES = "crates/tables/src/lib.rt"
TRACE = "crates/trace/src/lib.rt"
READING_EVENTS = "crates/reader/src/event.rt"
READING_TABLE = "crates/reader/src/table.rt"
CALLS = "crates/calls/src/lib.rt"
LISTING = "crates/listing/src/lib.rt"
SWEEP = "crates/listing/src/sweep.rt"
TICKS = "crates/listing/src/ticks.rt"
TEXT = "crates/text/src/lib.rt"
ACTIVITY = "crates/accounts/src/activity.rt"
NOTED_EVENTS = "crates/accounts/src/events.rt"
NOTED_LEAVING = "crates/accounts/src/leaving.rt"
NOTED_TICKS = "crates/accounts/src/ticks.rt"
LINES = "crates/accounts/src/lines.rt"
REPORT = "crates/report/src/lib.rt"

CHOICE = "        Some(c) => charge(s, c.thread, &free, &it.best),\n"
PERIOD = "scaled(t.share, Moment(t.period))"
FITS = "contends(t) && t.e - t.w < Amount::from(room)"
# a record that the listing sweeps changes the jobs of a thread and nothing else: with this no arrival is swept
NO_SWEEP = (SWEEP, "        Some(t.jobs + 1)\n", "        None\n")

ALIKE = {
    # ---- step 1, completion
    "completion-pulls-back": [(EVENTS, f"t.e.max(t.w + {PERIOD})", f"t.w + {PERIOD}")],
    "completion-keeps-deadline": [(EVENTS, f"        e: t.e.max(t.w + {PERIOD}),\n", "")],
    "stays-at-equality": [(EVENTS, "if due < t.w {", "if due <= t.w {")],
    "receiver-earlier-too": [(RECEIVING, " && !earlier(deadline(y), deadline(x))", "")],
    "receiver-only-earlier": [(RECEIVING, "!earlier(deadline(y), deadline(x))", "earlier(deadline(y), deadline(x))")],
    "receiver-strictly-later": [(RECEIVING, "!earlier(deadline(y), deadline(x))", "earlier(deadline(x), deadline(y))")],
    "receiver-contending": [
        (RECEIVING, "use crate::thread::{at_rest, closer, deadline, earlier, is_active};", "use crate::thread::{at_rest, closer, contends, deadline, earlier};"),
        (RECEIVING, "    is_active(y) && ", "    contends(y) && "),
    ],
    "receiver-in-any-application": [(RECEIVING, " && y.app == x.app", "")],
    "freed-amount-lost": [(EVENTS, "lighter(s.threads[b], due - t.w)", "lighter(s.threads[b], due - due)")],
    "completion-forgets-who-had": [(EVENTS, "    s.completed = true;\n", "    s.completed = true;\n    s.had = Table::NOBODY;\n")],
    "completion-closes": [(EVENTS, "    s.completed = true;\n", "    s.completed = true;\n    s.closed = true;\n")],
    "completion-not-remembered": [(EVENTS, "    s.completed = true;\n", "")],
    "second-completion": [(EVENTS, "if k != s.had || s.completed {", "if k != s.had {")],
    "nine-before-ten": [
        (EVENTS, "    if s.closed {\n        return Err(Refusal::AfterAnArrival);\n    }\n    if k != s.had || s.completed {\n        return Err(Refusal::NotItsTick);\n    }\n",
         "    if k != s.had || s.completed {\n        return Err(Refusal::NotItsTick);\n    }\n    if s.closed {\n        return Err(Refusal::AfterAnArrival);\n    }\n"),
    ],
    # ---- step 2, leaving
    "leaving-strict": [(THREAD, "scaled(t.share, now) < t.w {", "scaled(t.share, now) <= t.w {")],
    "leaving-never": [(THREAD, "        return t;\n    }\n    at_rest(t)\n", "        return t;\n    }\n    t\n")],
    "leaving-contending": [(THREAD, "if t.phase != Phase::NonContending || ", "if t.phase == Phase::Inactive || ")],
    "leaving-not-before-arrival": [(EVENTS, "    leaving(&mut s);\n", "")],
    "leaving-not-at-tick": [(PASSES, "left_unless(closed, s.threads[i], now)", "left_unless(true, s.threads[i], now)")],
    # ---- step 3, arrivals
    "arrival-resets-w": [
        (EVENTS, "Phase::NonContending => (t.w, t.w + period),", "Phase::NonContending => (scaled(t.share, now), scaled(t.share, now) + period),"),
    ],
    "arrival-keeps-deadline": [(EVENTS, "Phase::NonContending => (t.w, t.w + period),", "Phase::NonContending => (t.w, t.e),")],
    "arrival-sets-deadline": [(EVENTS, "Phase::Contending => (t.w, t.e),", "Phase::Contending => (t.w, t.w + period),"), NO_SWEEP],
    "arrival-from-zero": [(EVENTS, "let w = scaled(t.share, now);", "let w = scaled(t.share, Moment(0));")],
    "arrival-open": [(EVENTS, "    s.closed = true;\n", ""), NO_SWEEP],
    "arrival-one-job-too-few": [(EVENTS, "if s.threads[k].jobs >= Table::MAX_JOBS {", "if s.threads[k].jobs + 1 >= Table::MAX_JOBS {"), NO_SWEEP],
    "arrival-refused": [(EVENTS, "    leaving(&mut s);\n", "    if s.threads[k].jobs < Table::MAX_JOBS {\n        return Err(Refusal::NoSuchThread);\n    }\n    leaving(&mut s);\n"), NO_SWEEP],
    # ---- step 4, fitting
    "fitting-after-passing": [(THREAD, FITS, "contends(t) && t.e < t.w")],
    "fitting-after-reaching": [(THREAD, FITS, "contends(t) && t.e <= t.w")],
    "fitting-at-equality": [(THREAD, FITS, "contends(t) && t.e - t.w <= Amount::from(room)")],
    "fitting-left-out": [(PASSES, "let t = fit_one(x, q - free[a]);", "let t = x;")],
    "fitting-repeated": [
        (THREAD, f"        let e = t.e + {PERIOD};\n",
         f"        let mut e = t.e + {PERIOD};\n        if e - t.w < Amount::from(room) {{\n            e = e + {PERIOD};\n        }}\n"),
    ],
    "fitting-whole-tick": [(PASSES, "fit_one(x, q - free[a])", "fit_one(x, q)")],
    "fitting-from-w": [(THREAD, f"let e = t.e + {PERIOD};", f"let e = t.w + {PERIOD};")],
    "fitting-non-contending": [(THREAD, FITS, "is_active(t) && t.e - t.w < Amount::from(room)")],
    # ---- step 5, choice
    "tie-to-highest": [(THREAD, "Some(o) if !earlier(it.deadline, o.deadline) => so_far,", "Some(o) if earlier(o.deadline, it.deadline) => so_far,")],
    "deadlines-rounded-down": [
        (THREAD, "Ordering::Equal => (d.remainder * o.share).cmp(&(o.remainder * d.share)),", "Ordering::Equal => Ordering::Equal,"),
    ],
    "deadlines-rounded-up": [
        (THREAD, "whole: e / u,", "whole: (e + u - 1) / u,"),
        (THREAD, "remainder: (e % u) as u32,", "remainder: 0,"),
    ],
    "deadlines-not-scaled": [
        (THREAD, "whole: e / u,", "whole: e,"), (THREAD, "remainder: (e % u) as u32,", "remainder: 0,"),
    ],
    "choice-of-active": [(PASSES, "            if contends(t) {", "            if is_active(t) {")],
    "choice-always-first": [(STEP, CHOICE, "        Some(_) => charge(s, 0, &free, &it.best),\n"), (STEP, "        None => idle_tick(s),\n", "        None => charge(s, 0, &free, &it.best),\n")],
    "choice-always-idle": [(STEP, CHOICE, "        Some(_) => idle_tick(s),\n")],
    "idle-leaves-threads": [(PASSES, "s.threads[i] = at_rest(s.threads[i]);", "s.threads[i] = s.threads[i];")],
    # ---- step 6, charge
    "charge-whole": [(PASSES, "let room = s.q - free[own];", "let room = s.q;")],
    "charge-share": [(PASSES, "let room = s.q - free[own];", "let room = s.threads[c].share;")],
    "own-application-benefits": [(PASSES, "if a != own {", "if a != Table::APPS {")],
    "nobody-benefits": [(PASSES, "if a != own {", "if a == Table::APPS {")],
    "beneficiary-contending": [
        (PASSES, "            best[a] = closer(best[a], it);\n            if contends(t) {\n", "            if contends(t) {\n                best[a] = closer(best[a], it);\n"),
    ],
    "free-share-of-all": [
        (PASSES, "        free[t.app as usize] += spare(t);\n", "        for a in 0..Table::APPS {\n            free[a] += spare(t);\n        }\n"),
    ],
    "non-contending-is-free": [(THREAD, "    if inactive(t) { t.share } else { 0 }", "    if !contends(t) { t.share } else { 0 }")],
    "completed-stays": [(PASSES, "    s.completed = false;\n", "")],
    "closed-stays": [(PASSES, "    s.closed = false;\n", "")],
    "clock-only": [
        (PASSES, "if a != own {", "if a == Table::APPS {"), (PASSES, "w: t.w + Amount::from(room),", "w: t.w + Amount::from(0),"),
        (PASSES, "s.threads[i] = at_rest(s.threads[i]);", "s.threads[i] = s.threads[i];"),
    ],
    # ---- drops
    "drop-head": [
        (EVENTS, "jobs: t.jobs.min(1),", "jobs: 0,"),
        (SWEEP, "Some(t.jobs.min(1))", "Some(0)"),
    ],
    "drop-nothing": [
        (EVENTS, "jobs: t.jobs.min(1),", "jobs: t.jobs,"), (SWEEP, "Some(t.jobs.min(1))", "Some(t.jobs)"),
    ],
    "drop-one": [
        (EVENTS, "jobs: t.jobs.min(1),", "jobs: if t.jobs > 1 { t.jobs - 1 } else { t.jobs },"),
        (SWEEP, "Some(t.jobs.min(1))", "Some(if t.jobs > 1 { t.jobs - 1 } else { t.jobs })"),
    ],
    "drop-brings-leaving": [
        (EVENTS, "    s.threads[k] = head_only(s.threads[k]);\n    Ok(s)\n", "    s.threads[k] = head_only(s.threads[k]);\n    leaving(&mut s);\n    Ok(s)\n"),
        (SWEEP, "Some(t.jobs.min(1))", "None"),
    ],
    # ---- runs and tables
    "seventeen-before-thirteen": [
        (STEP, "    let n = ticks_until(s.clock, to)?; // whatever the row\n",
         "    if to >= s.clock && row.len() < (to.0 - s.clock.0) as usize {\n        return Err(Refusal::RowTooShort);\n    }\n    let n = ticks_until(s.clock, to)?;\n"),
    ],
    "idle-entry": [(STEP, "        return Table::IDLE;", "        return 64;")],
    "two-before-one": [
        (TABLES, "    if q == 0 || q > Table::MAX_Q {\n        return Err(Refusal::QOutsideItsRange);\n    }\n    if threads == 0 || threads as usize > Table::MAX_THREADS {\n        return Err(Refusal::ThreadsOutsideTheirRange);\n    }\n",
         "    if threads == 0 || threads as usize > Table::MAX_THREADS {\n        return Err(Refusal::ThreadsOutsideTheirRange);\n    }\n    if q == 0 || q > Table::MAX_Q {\n        return Err(Refusal::QOutsideItsRange);\n    }\n"),
    ],
    "seven-before-six": [
        (TABLES, "    if (x.share as u64) * (period as u64) < q as u64 {\n        return Err(Refusal::LessThanATick);\n    }\n    if (before as u64) + (x.share as u64) > q as u64 {\n        return Err(Refusal::SharesAboveQ);\n    }\n",
         "    if (before as u64) + (x.share as u64) > q as u64 {\n        return Err(Refusal::SharesAboveQ);\n    }\n    if (x.share as u64) * (period as u64) < q as u64 {\n        return Err(Refusal::LessThanATick);\n    }\n"),
    ],
    "period-0-as-written": [(TABLES, "if p == 0 { Table::USUAL_PERIOD } else { p }", "if p == 0 { 0 } else { p }")],
    "row-not-counted": [(TABLES, "if (before as u64) + (x.share as u64) > q as u64 {", "if (before as u64) > q as u64 {")],
    "six-at-equality": [(TABLES, "if (x.share as u64) * (period as u64) < q as u64 {", "if (x.share as u64) * (period as u64) <= q as u64 {")],
    # ---- traces and the listing
    # the greater byte of each two first: of four bytes too, as the rule has them in two halves
    "big-endian": [
        (TRACE, "from_le_bytes([i0, i1])", "from_be_bytes([i0, i1])"),
        (TRACE, "from_le_bytes([m0, m1, m2, m3])", "from_le_bytes([m1, m0, m3, m2])"),
        (TRACE, "from_le_bytes([q0, q1])", "from_be_bytes([q0, q1])"),
        (TRACE, "from_le_bytes([n0, n1])", "from_be_bytes([n0, n1])"),
        (TRACE, "from_le_bytes([a0, a1])", "from_be_bytes([a0, a1])"),
        (TRACE, "from_le_bytes([s0, s1])", "from_be_bytes([s0, s1])"),
        (TRACE, "from_le_bytes([p0, p1, p2, p3])", "from_le_bytes([p1, p0, p3, p2])"),
        (TRACE, "Kind::RunTo => Ok(Record::RunTo(Moment(u32::from_le_bytes(sized(b)?)))),",
         "Kind::RunTo => {\n                let [t0, t1, t2, t3] = sized::<4>(b)?;\n                Ok(Record::RunTo(Moment(u32::from_le_bytes([t1, t0, t3, t2]))))\n            }"),
        (TRACE, "from_le_bytes([*l0, *l1])", "from_be_bytes([*l0, *l1])"),
        (TRACE, "from_le_bytes([*k0, *k1])", "from_be_bytes([*k0, *k1])"),
    ],
    "length-below-two": [(TRACE, "if n < 2 || s.len() < 2 + n {", "if s.len() < 2 + n {")],
    "eight-before-thirteen": [
        (READING_EVENTS, "        Record::Arrival(m, i) | Record::Completion(m, i) | Record::Drop(m, i) => {\n            thread_answer(s, m, i)\n        }\n",
         "        Record::Arrival(m, i) => {\n            if (i as usize) < s.count { moment_answer(s, m) } else { Err(Refusal::NoSuchThread) }\n        }\n        Record::Completion(m, i) | Record::Drop(m, i) => thread_answer(s, m, i),\n"),
    ],
    "head-anywhere": [(READING_TABLE, "    if r.table.threads != 0 {\n        return Err(Refusal::NotInItsPlace);\n    }\n", "")],
    "rows-may-miss": [
        (LISTING, "        reader::ended(r)?;\n", ""),
    ],
    "deadline-before-fitting": [
        (TICKS, "        lead_on(s);\n", "        let y = *s;\n        lead_on(s);\n"),
        (TICKS, "text::granted(out, used, tick, b as u16, t.app, t.e, t.w)", "text::granted(out, used, tick, b as u16, t.app, y.threads[b].e, t.w)"),
    ],
    "virtual-before-charge": [
        (TICKS, "        lead_on(s);\n", "        let y = *s;\n        lead_on(s);\n"),
        (TICKS, "text::granted(out, used, tick, b as u16, t.app, t.e, t.w)", "text::granted(out, used, tick, b as u16, t.app, t.e, y.threads[b].w)"),
    ],
    "refused-at-the-end": [
        (CALLS, "        stop(out, turn, refusal);\n",
         "        let place = turn.progress.place() + n as u64;\n        turn.written = text::refusal(out, turn.written, refusal as u8, place);\n        turn.progress.finish();\n"),
    ],
    "no-sign": [(TEXT, "        if x.0 < 0 {\n            self.byte(b'-');\n        }\n        self.decimal(", "        self.decimal(")],
    # ---- request 8: what is lost, and who becomes inactive or active
    "gift-is-lost": [(NOTED_EVENTS, "        Some(_) => Amount(0),\n", "        Some(_) => freed(x, s.clock),\n")],
    "leaving-loses-nothing": [(NOTED_LEAVING, "freed(x, s.clock), s.clock);", "Amount(0), s.clock);")],
    "completion-loses-nothing": [(NOTED_EVENTS, "        None => freed(x, s.clock),\n", "        None => Amount(0),\n")],
    "leaving-unheard": [(NOTED_LEAVING, "    for i in 0..s.count {\n", "    for i in 0..0 {\n")],
    "leaving-ahead-of-the-clock": [(NOTED_LEAVING, " && t.w <= scaled(t.share, now)\n", "\n")],
    "ending-ahead-of-the-clock": [(NOTED_EVENTS, "    if x.jobs > 1 || scaled(x.share, s.clock) < x.w {", "    if x.jobs > 1 {")],
    "waking-at-each-arrival": [(NOTED_EVENTS, "    if inactive(left_unless(s.closed, s.threads[k], s.clock)) {", "    if k < s.count {")],
    # ---- request 8: stretches
    "stretch-goes-on": [(ACTIVITY, "    if c.active == 0 {", "    if c.active != c.active {")],
    "stretch-begins-anew": [(ACTIVITY, "    if c.active == 0 {", "    if c.active == c.active {")],
    "stretch-begins-late": [(ACTIVITY, "            since: now,\n", "            since: Moment(now.0 + 1),\n")],
    "stretch-of-one-thread": [(NOTED_LEAVING, "    if c.active != 0 {\n        return at;\n    }\n", "")],
    "stretch-over-idle-ticks": [(NOTED_TICKS, "        let used = all_held(out, from, t, cs, tick, How::Idle);\n", "        let used = from;\n")],
    "idle-end-is-even": [(NOTED_TICKS, "How::Idle", "How::Over")],
    # an application that is none has no activity to change
    "granted-by-thread": [
        (NOTED_TICKS, "    activity::serve(&mut cs[t.rows[had].app as usize]);\n", "    if had < Table::APPS {\n        activity::serve(&mut cs[had]);\n    }\n"),
    ],
    # ---- request 8: the equation and the report
    "share-of-all": [(LINES, "        if x.app == a {\n", "        if x.app == x.app {\n")],
    "one-tick-more-elapsed": [(LINES, "until.0 - c.stretch.since.0;", "until.0 + 1 - c.stretch.since.0;")],
    "lost-taken-away": [(LINES, " + c.lost\n", " - c.lost\n")],
    "open-left-out": [
        (REPORT, "        let held = accounts::still_open(out, at, &self.reading.table, &self.activities, now);\n", "        let held = at;\n"),
    ],
    "report-goes-on": [
        (REPORT, "    let next = reader::record(p.reading, e)?;\n",
         "    let next = match reader::record(p.reading, e) {\n        Ok(next) => next,\n        Err(refusal) => {\n            let now = p.reading.state.clock;\n            turn.written = accounts::still_open(out, turn.written, &p.reading.table, &p.activities, now);\n            return Err(refusal);\n        }\n    };\n"),
    ],
}
