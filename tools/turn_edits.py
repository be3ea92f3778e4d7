#!/usr/bin/env python3
"""Turns the must-fail edits of the older Rattle: crates/*/must-fail/*.edit to today's texts, with the same wrong meaning.

usage: tools/turn_edits.py MANIFEST TODAY [--write]     in the top folder

MANIFEST: [crate, edit, .., [(file, old, new)..]] as LANDED has them. TODAY: {crate/edit: [(file, base lines, edited lines)..]}: what differs between each ported
file and a copy of it that the edit was applied to before port.py and spell_names.py ran. Both came from a scratch tree of the port, and are not kept.
A pair whose file is src/ and whose old text still stands once stays as it is. A pair on specs/ gets the span of today's line that is most like its old text.
A pair on a proof file of the older Rattle (it renamed the callee there too) goes: today's proof needs no such word. HAND holds the few that were turned by hand.
"""
import difflib
import json
import os
import re
import subprocess
import sys

TOKEN = re.compile(r"«?[\w']+»?|\s+|.")
# (crate, edit, file, old): today's old and new
HAND = {}



# (a pair with None goes: another one does its part)
def model(edit, *pairs):
    for file, old, to in pairs:
        HAND["model", f"{edit}.edit", f"specs/{file}.antt", old] = to


model(
    "notices_swapped",
    ("Registers", "noteIf (bit 14 v) (UartFeature Loopback)", ("note_if (bit 14 v) (UartFeature Loopback)", "note_if (bit 15 v) (UartFeature Later)")),
    ("Registers", "noteIf (bit 15 v) (UartFeature TxFlowControl)", ("note_if (bit 15 v) (UartFeature TxFlowControl)", "note_if (bit 14 v) (UartFeature Loopback)")),
    ("Registers", "(UartFeature Later)", ("(UartFeature Later)", "(UartFeature TxFlowControl)")),
)
model(
    "past_date_not_armed",
    ("Arm", "use mathlib.Core.Bool.{_&&_}", ("Prelude.{", "Prelude.{not, map, ")),
    ("Arm", "use mathlib.Core.List.{List, [], _∷_}", None),
    ("Arm", "use Rattle·dates.specs.Dates.{later}", ("Dates.{later}", "Dates.{later, subcycles}")),
    ("Arm", "armAll (instants u)", ("arm_all (instants u)", "arm_all (map (λ d. only_if (not (due_by (subcycles u.control.last) d)) d) (instants u))")),
)
model("deadline_keeps_latest", ("Numbers", "Dates.{cycles, earlier}", ("Dates.{cycles, earlier}", "Dates.{cycles, later}")))
model(
    "reset_drops_what_left",
    ("Calls", "      withRx [] (withInFlight [] (withControl", ("      with_rx [] (with_in_flight [] (with_control", "      with_tx [] (with_rx [] (with_in_flight [] (with_control")),
    ("Calls", "(withLine (clearedLine (u .control .line)) (u .control))) u))", ("(with_line (cleared_line u.control.line) u.control)) u))", "(with_line (cleared_line u.control.line) u.control)) u)))")),
)
model(
    "runs_tested_before_host",
    ("Calls", "      (refuseIf (hostFull (length (u .host)) (length bs)) HostFull", ("      (refuse_if (host_full (length u.host) (length bs)) HostFull", "      (refuse_if (Later) Other")),
    (
        "Calls",
        "(refuseIf (runsFull (length bs) (length (u .hostRuns)) (lastDate (u .hostRuns)) (hostDate now at)) RunsFull none))",
        ("(refuse_if (runs_full (length bs) (length u.host_runs) (last_date u.host_runs) (host_date now at)) RunsFull none))", "(refuse_if (host_full (length u.host) (length bs)) HostFull none))"),
    ),
    ("Calls", "(refuseIf (Later) Other", ("(refuse_if (Later) Other", "(refuse_if (runs_full (length bs) (length u.host_runs) (last_date u.host_runs) (host_date now at)) RunsFull")),
)
model(
    "take_written_untested",
    ("Calls", "takeWritten lent u = taking lent [] (λ s.", ("take_written lent u = taking lent [] (λ s.", "take_written lent u = record { test = none; refuses = not_taken lent; changes = []; work = (λ s.")),
    ("Calls", "(withTx [] (withInFlight [] s)))", ("(with_tx [] (with_in_flight [] s)))", "(with_tx [] (with_in_flight [] s))) }")),
)
HAND[("calls", "first_wrong_answers.edit", "src/clock_change.rt", "            period,")] = ("cycle, period,", "cycle, cycle,")
for edit, file, old, to in [
    ("first", "receive", "at", ("cycle, at, bytes,", "cycle, cycle, bytes,")),
    ("first", "write", "value", ("cycle, offset, value,", "cycle, offset, offset,")),
    ("first", "read", "cycle", ("rx, cycle, offset,", "rx, 0, offset,")),
    ("first", "clock_change", "period", ("cycle, period,", "cycle, cycle,")),
    ("first", "take_tx", "cycle", ("rx, cycle, out,", "rx, 0, out,")),
    ("first", "watch", "on", ("cycle, on,", "cycle, true,")),
    ("first", "power_down", "cycle", ("rx, cycle,", "rx, 0,")),
    ("first", "write_row", "cycle", ("rx, cycle, bytes,", "rx, 0, bytes,")),
    ("second", "receive", "cycle", ("rx, cycle, at, bytes,", "rx, at, at, bytes,")),
    ("second", "write", "offset", ("cycle, offset, value,", "cycle, value, value,")),
    ("second", "read", "offset", ("cycle, offset,", "cycle, 0,")),
    ("second", "clock_change", "cycle", ("rx, cycle, period,", "rx, period, period,")),
    ("second", "watch", "cycle", ("rx, cycle, on,", "rx, 0, on,")),
]:
    HAND[("exports", f"{edit}_wrong_answers.edit", f"src/{file}.rt", f"        {old},")] = to


def key(text):
    return re.sub(r"[\W_]", "", text).lower()


def form(text):
    """What shows whether a span begins and ends as the older text does."""
    return re.sub(r"[\s_«»·]", "", text.replace("′", "'").replace(" .", ".")).lower()


def depth(text):
    return text.count("(") - text.count(")"), text.count("{") - text.count("}")


def span(base, edited, old, text):
    """The pair (old, new) for a line: the span of tokens around what differs that is most like the older text and stands once in the file."""
    a, b = TOKEN.findall(base), TOKEN.findall(edited)
    head = 0
    while head < min(len(a), len(b)) and a[head] == b[head]:
        head += 1
    tail = 0
    while tail < min(len(a), len(b)) - head and a[-1 - tail] == b[-1 - tail]:
        tail += 1
    best = None
    for i in range(head + 1):
        for j in range(len(a) - tail, len(a) + 1):
            one = "".join(a[i:j])
            if not one.strip() or one != one.rstrip() or text.count(one) != 1:
                continue
            other = "".join(b[i : len(b) - (len(a) - j)])
            if not other.strip() and other:
                continue
            score = difflib.SequenceMatcher(None, form(one), form(old), autojunk=False).ratio()
            score += 0.1 * (depth(one) == depth(old)) + 0.1 * (one[0].isspace() == old[0].isspace()) + 0.1 * (form(one)[:1] == form(old)[:1]) + 0.1 * (form(one)[-1:] == form(old)[-1:])
            if best is None or score > best[0]:
                best = score, one, other
    return best


def main():
    manifest, today = json.load(open(sys.argv[1])), json.load(open(sys.argv[2]))
    write = "--write" in sys.argv
    for crate, edit, *_, pairs in manifest:
        path = f"crates/{crate}/must-fail/{edit}"
        hunks = [[f, a, b, False] for f, a, b in today[f"{crate}/{edit}"]]
        out, texts, now, skip, pending = [], {}, "", False, []
        lines, at = subprocess.run(["git", "show", f"cb58bd4:{path}"], stdout=subprocess.PIPE, check=True).stdout.decode().split("\n"), 0
        n = 0
        while at < len(lines):
            line = lines[at]
            at += 1
            if line.startswith("file: "):
                now = line[6:].strip()
                skip = now.startswith("proofs/")
                if not skip:
                    out.append(line)
                    texts.setdefault(now, open(f"crates/{crate}/{now}").read())
                continue
            if not line.startswith("old: "):
                if not skip or line == "":
                    out.append(line)
                continue
            old, new = line[5:], lines[at][4:].removeprefix(" ")
            assert lines[at].startswith("new:"), (path, line)
            assert (now, old, new) == tuple(pairs[n]), (path, pairs[n])
            n += 1
            at += 1
            if skip:
                continue
            text = texts[now]
            if (crate, edit, now, old) in HAND:
                to = HAND[crate, edit, now, old]
                for h in hunks:
                    h[3] = h[3] or crate == "model" and h[0] == now and (edit != "deadline_keeps_latest.edit" or h[1][0].startswith("use "))
                if not to:
                    continue
                old, new = to
            elif re.fullmatch(r"(use )?[\w·.]+\.\{.*\}", old):
                # a line of imports: the words that are added, at its head
                had, has = (set(re.findall(r"[^\s{},]+", it[it.index(".{") :])) for it in (old, new))
                mine = [h for h in hunks if h[0] == now and not h[3] and len(h[1]) == 1 and h[1][0].startswith("use ")]
                more = [set(re.findall(r"[^\s{},]+", h[2][0])) - set(re.findall(r"[^\s{},]+", h[1][0])) for h in mine]
                if had - has or len(mine) != 1 or len(more[0]) != len(has - had):
                    print("HAND", path, now, "|", old, "|", new, "|", mine)
                    out += [line, lines[at - 1]]
                    continue
                mine[0][3] = True
                head = re.search(r"[\w.]+\.\{", mine[0][1][0])[0]
                head = head if text.count(head) != 1 else next(it for it in (".".join(head.split(".")[-3:]), head) if text.count(it) == 1)
                head = next((it for it in ("Prelude.{",) if head.endswith(it) and text.count(it) == 1), head)
                old, new = head, head + ", ".join(sorted(more[0])) + ", "
            elif now.startswith("specs/"):
                mine = [h for h in hunks if h[0] == now and not h[3] and len(h[1]) == len(h[2]) == 1]
                # the hunk whose line holds the older text
                fits = sorted(mine, key=lambda h: -difflib.SequenceMatcher(None, key(old) + "|" + key(new), key(h[1][0]) + "|" + key(h[2][0]), autojunk=False).ratio())
                if not fits:
                    print("HAND", path, now, "|", old, "|", new)
                    out += [line, lines[at - 1]]
                    continue
                h = next((h for h in mine if key(old) in key(h[1][0]) and key(new) in key(h[2][0])), fits[0])
                h[3] = True
                got = span(h[1][0], h[2][0], old, text)
                if not got:
                    print("NOT ONCE", path, now, "|", h[1][0], "|", h[2][0])
                    out += [line, lines[at - 1]]
                    continue
                score, one, other = got
                if key(one) != key(old) or key(other) != key(new):
                    print("DIFFERS" if score > 1 else "FAR", path, now, "\n   ", old, "\n   ", new, "\n   ", one, "\n   ", other)
                old, new = one, other
            if text.count(old) != 1:
                print("BAD", path, now, text.count(old), "|", old)
            texts[now] = text.replace(old, new)
            out += [f"old: {old}", f"new: {new}".rstrip() if not new else f"new: {new}"]
        for h in hunks:
            if not h[3] and h[0].startswith("specs/"):
                print("LEFT", path, h)
        if write:
            while len(out) > 1 and out[-1] == out[-2] == "":
                out.pop()
            open(path, "w").write("\n".join(out))


main()
