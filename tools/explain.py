#!/usr/bin/env python3
"""Says in plain words what scr_replay printed: a history line by line, or why the script is refused.

usage: explain.py [SCRIPT] < OUTPUT

With the script's file a refusal quotes the line, and of a script that isn't run yet it says which lines keep it from
being run. The status is 0 after a history, 2 after a refusal, 64 after a wrong call and 65 where the input is neither.
Python 3.8 or later, its standard library alone.
"""
import re
import sys

import history

REASONS = {
    1: "an empty word, or words of no line that scripts have (a word misspelled, or a blank too many?)",
    2: "a number isn't of its form or range (decimal, without a sign or a leading zero)",
    3: "a name or word isn't of its form",
    4: "the first line has to be `site N R S`",
    5: "this setting stands twice",
    6: "no such line may stand here (first site, then set, then runs: run, rank, turn, stop; every run has its stop line)",
    7: "there is no such rank, or a range A-B has A above B",
    8: "there is no such node, a node stands twice, or not as many as the site has",
    9: "this is a rank's 17th file since its last start: 16 is the limit",
    10: "this write would end past 1,048,576 bytes of its file",
    11: "a limit is passed: 4,194,304 bytes of text, 256 runs, 65,536 steps, 1,000,000 turns, 67,108,864 bytes written or read",
    12: "the scheme doesn't fit the groups of nodes (partner and xor want two nodes in each, rs one more than its shares; without a line the scheme is xor)",
    13: "a byte that no script has, as a tab or a carriage return",
    14: "the last line has no line feed",
    15: "this is a script, but of a form that isn't run yet",
}

LINES = {
    "run": "Run {run} begins, its nodes at the places {places}.",
    "emptied": "Node {node} is in none of the run's places, and is emptied.",
    "time": "The clock reads {time}.",
    "call": "  Rank {rank} calls `{step}`, its step {number}, and waits for the others.",
    "reply": "  Rank {rank} takes its answer: {said}.",
    "local": "  Rank {rank} does `{step}` by itself: {said}.",
    "discarding": "Dataset {set} lost more than its scheme bears: its first gate `sealed` is closed.",
    "discarded": "Dataset {set} is given up.",
    "mended": "Dataset {set} is whole again on every node.",
    "sealing": "Dataset {set}: every record is whole, and the first gate `sealed` is opened.",
    "settled": "Dataset {set} is sealed and stable on every node.",
    "evicting": "Dataset {set} makes room: its first gate `sealed` is closed.",
    "evicted": "Dataset {set} has left the cache.",
    "flushing": "Dataset {set} begins its way to the prefix.",
    "indexing": "Dataset {set}: its files are on the prefix, and its index record's gate is opened.",
    "flushed": "Dataset {set} is on the prefix and in the index.",
    "givenup": "The flush of dataset {set} is given up: {said}.",
    "fetching": "Dataset {set} is copied back from the prefix.",
    "fetched": "Dataset {set} is back in cache, sealed on every node.",
    "failing": "Dataset {set} was called invalid: the first of its gates is changed.",
    "failed": "Dataset {set} is marked as failed.",
    "lost": "Between runs: node {node} is lost.",
    "scavenging": "Between runs: dataset {set} is to be brought to the prefix.",
    "scavenged": "Between runs: the scavenge ends without a dataset: {said}.",
    "index": "Between runs: `index {words}`: {said}.",
    "halt": "Between runs: `halt {words}`: {said}.",
}

ANSWERS = [
    (r"ok (d\..*)", r"done, as \1"),
    (r"ok (\S+)", r"dataset \1 is begun"),
    (r"ok", "done"),
    (r"yes (\S+)", r"yes, by the condition `\1`"),
    (r"kept", "kept, whole and stable on every node"),
    (r"notkept", "not kept, since some rank called its part invalid; its files are gone"),
    (r"none", "there is none"),
    (r"failed", "this restart failed"),
    (r"bytes -", "no bytes"),
    (r"bytes (.*)", r"the bytes \1"),
    (r"mismatch (.*)", r"refused, since rank \1 called something else than rank 0"),
    (r"phase (.*)", r"refused, since it has no place where the job is \1"),
    (r"badname", "refused, since this is no name"),
    (r"nofile", "refused, since this dataset has no such file of this rank"),
    (r"limit", "refused, since a limit is reached"),
    (r"taken (.*)", r"refused, since dataset \1 has that name"),
    (r"noentry", "the index has no such entry"),
    (r"device (.*) (.*)", r"device \1 failed (its fault number \2)"),
    (r"full (.*) (.*) (.*)", r"device \1 is full (\2 of \3 bytes used)"),
    (r"cut", "it was cut short"),
    (r"(\d+\.\d+) (\S+)", r"dataset \1, named \2, is offered"),
]

STOPS = {
    "ended": "The run ends by itself.",
    "script": "The run is stopped where the script wants it.",
    "runs": "The run is over: no number is left for it.",
    "command": "All devices are stopped after that command.",
}


def said(answer):
    """An answer, in words."""
    for form, words in ANSWERS:
        found = re.fullmatch(form, answer)
        if found:
            return found.expand(words)
    return answer


def found_words(fields):
    """What a run found: the datasets in cache, and the index."""
    kept = ["%s (%s)" % (d, "no node lost" if lost == "-" else "lost: " + lost) for d, lost in (row.split(":") for row in fields["kept"].split())]
    index = fields["index"].split()
    return f"It finds {'in cache ' + ', '.join(kept) if kept else 'no dataset in cache'}{'; in the index ' + ', '.join(index) if index else ''}."


def sentence(event):
    """An event, in words."""
    fields = event.fields
    if event.kind == "found":
        return found_words(fields)
    if event.kind == "decided":
        return f"All ranks have called, and `{fields['call']}` is answered: {said(fields['answer'])}."
    if event.kind == "stop":
        return STOPS.get(fields["cause"]) or f"The run is over: {said(fields['cause'])}."
    if event.kind == "scavenged" and fields["answer"] not in (None, "none"):
        return f"Between runs: dataset {fields['answer']} is on the prefix and in the index."
    words = said(fields.get("answer") or fields.get("cause") or "")
    return LINES[event.kind].format(said=words, **fields)


def means_first(who):
    return who == "all" or who.split("-")[0] == "0"


def unbuilt(lines):
    """Which lines keep a script from being run, as `is_built` in crates/scr_replay/specs/Forms.antt has it: (line, why)."""
    why, kept, starts, nodes, settings, last = [], 0, 0, 0, {"scheme": ("xor", 0), "cache": ("1", 0), "flush": ("10", 0)}, 0
    for at, line in enumerate(lines, 1):
        words = line.split(" ") + ["", "", ""]
        if words[0] == "site":
            nodes = int(words[1])
        elif words[0] == "set":
            settings[words[1]] = (words[2], at)
        elif words[0] in ("lose", "scavenge", "index"):
            why.append((at, f"`{words[0]}` lines aren't run yet"))
        elif words[0] == "run" and words[1] != ",".join(map(str, range(nodes))):
            why.append((at, "a run has to be at the places 0 to N-1 in their order"))
        elif words[0] == "stop" and words[1:3] != ["0", "end"]:
            why.append((at, "a run has to end by `stop 0 end`"))
        elif words[0] == "rank" and words[2:4] == ["restarted", "invalid"]:
            why.append((at, "`restarted invalid` isn't run yet"))
        elif words[0] == "rank" and words[2] == "start" and words[4] != "ckpt":
            why.append((at, "datasets for the prefix (`output`, `both`) aren't run yet"))
        if words[0] == "rank" and means_first(words[1]):
            if words[2] == "start":
                starts, last = starts + 1, at
                if kept >= int(settings["cache"][0]):
                    why.append((at, f"here a dataset would have to leave the cache, which holds {settings['cache'][0]} (`set cache`)"))
            kept += words[2:4] == ["complete", "valid"]
    if settings["scheme"][0] != "single":
        why.append((settings["scheme"][1], f"the scheme is {settings['scheme'][0]}: `set scheme single` alone is run yet"))
    if 0 < int(settings["flush"][0]) <= starts:
        why.append((last, f"rank 0 starts {starts} datasets, and number {settings['flush'][0]} would come due for a flush (`set flush 0` for none)"))
    return sorted(why)


def quoted(at, script):
    return f"\n    line {at}: {script[at - 1]}" if 0 < at <= len(script) else ""


def refusal(at, reason, script):
    """Why a script is refused."""
    told = [f"The script is refused (reason {reason}): {REASONS[reason]}.{quoted(at, script)}"]
    if reason == 15:
        told += [f"  {why}{quoted(line, script)}" for line, why in unbuilt(script)]
    return "\n".join(told)


def main(words):
    if len(words) > 1 or words[:1] == ["--help"]:
        print(__doc__.strip(), file=sys.stderr)
        return 64
    try:
        script = open(words[0], encoding="latin-1").read().split("\n") if words else []
    except OSError as error:
        print(f"explain.py: {words[0]}: {error.strerror}", file=sys.stderr)
        return 64
    text = sys.stdin.buffer.read().decode("latin-1")
    refused = re.fullmatch(r"refused line (\d+) reason (\d+)\n", text)
    if refused and int(refused[2]) in REASONS:
        print(refusal(int(refused[1]), int(refused[2]), script))
        return 2
    try:
        events = history.read(text)
    except history.NoHistory as error:
        print(f"explain.py: this is no history: {error}", file=sys.stderr)
        return 65
    for event in events:
        print(sentence(event))
    return 0


if __name__ == "__main__":
    sys.exit(main(sys.argv[1:]))
