"""The lines of a printed history, by their forms: the table of docs/HISTORY.md as regular expressions.

`read` gives the events of a text, or says which line is none. It judges forms alone: whether the events are a legal
history is what the proofs are about. Python 3.8 or later, its standard library alone.
"""
import re
from collections import namedtuple

Event = namedtuple("Event", "kind line fields")

N = r"(?:0|[1-9][0-9]*)"
D = rf"{N}\.{N}"
WORD = r"[!-~]{1,80}"
NAME = r"(?!\.)[A-Za-z0-9._-]{1,64}"
FLAGS = r"(?:ckpt|output|both)"
VALID = r"(?:valid|invalid)"
HEX = r"(?:[0-9a-f]{2})+"
STEP = (
    rf"(?:need|start {WORD} {FLAGS}|complete {VALID}|have|restart|restarted {VALID}|exit|finalize|end"
    rf"|route {WORD}|write {WORD} {N} (?:text {WORD}|hex {HEX}|fill {N} {N})|read {WORD} {N} {N})"
)
KIND = r"(?:need|start|complete|have|restart|restarted|exit|finalize|end)"
DEVICE, FULL = rf"device {N} {N}", rf"full {N} {N} {N}"
REFUSAL = rf"mismatch {N}|phase (?:idle|output|offered|restart|final)|badname|nofile|limit|taken {D}|{DEVICE}|{FULL}"
ANSWER = (
    rf"(?:ok|yes|no|yes (?:reason|checkpoints|after|before)|ok {D}|kept|notkept|none|{D} {NAME}|failed"
    rf"|ok d\.{N}\.{N}\.{N}\.f\.{N}\.{N}|bytes (?:-|{HEX})|{REFUSAL})"
)
RESULT = rf"(?:ok|noentry|device 32 {N}|full 32 {N} {N})"
ENTRY = rf"{D}/{NAME}/(?:flushed|failed)/{FLAGS}\*?"
HALT = rf"(?:checkpoints {N}|before {N}|after {N}|seconds {N}|reason {NAME}|clear)"

FORMS = {
    "run": rf"run (?P<run>{N}) at (?P<places>{N}(?:,{N})*)",
    "emptied": rf"emptied (?P<node>{N})",
    "found": rf"found(?P<kept>(?: {D}:(?:-|{N}(?:\+{N})*))*) \|(?P<index>(?: {D}:(?:flushed|failed))*)",
    "time": rf"time (?P<time>{N})",
    "call": rf"call (?P<rank>{N}) (?P<number>{N}) (?P<step>{STEP})",
    "decided": rf"decided (?P<call>{KIND}) (?P<answer>{ANSWER})",
    "reply": rf"reply (?P<rank>{N}) (?P<number>{N}) (?P<answer>{ANSWER})",
    "local": rf"local (?P<rank>{N}) (?P<number>{N}) (?P<step>{STEP}) = (?P<answer>{ANSWER})",
    "givenup": rf"givenup (?P<set>{D}) (?P<cause>{DEVICE}|{FULL})",
    "stop": rf"stop (?P<cause>ended|script|runs|command|{DEVICE}|{FULL})",
    "lost": rf"lost (?P<node>{N})",
    "scavenged": rf"(?:scavenged (?P<answer>{D}|none)|scavenge (?P<cause>cut|{DEVICE}|full 32 {N} {N}))",
    "index": rf"index (?P<words>list|drop {N}|current {N}) = (?P<answer>{RESULT}|none|{ENTRY}(?: {ENTRY})*)",
    "halt": rf"halt (?P<words>{HALT}) = (?P<answer>{RESULT})",
}
# What happens to one dataset: the word, and the dataset.
OF_DATASETS = (
    "discarding discarded mended sealing settled evicting evicted flushing indexing flushed fetching fetched failing failed scavenging"
).split()
FORMS.update({word: rf"{word} (?P<set>{D})" for word in OF_DATASETS})
FORMS = {kind: re.compile(form) for kind, form in FORMS.items()}
REFUSED = re.compile(rf"(?:{REFUSAL}|notkept|failed|noentry)")


class NoHistory(Exception):
    """The text is that of no history: the first line that is no event's, counted from 1."""


def event_of(line):
    """The event that a line tells, or None."""
    for kind, form in FORMS.items():
        found = form.fullmatch(line)
        if found:
            return Event(kind, line, found.groupdict())
    return None


def read(text):
    """The events of a history's text, one a line, each line ended by a line feed."""
    lines = text.split("\n")
    if lines.pop():
        raise NoHistory(f"line {len(lines) + 1} has no line feed at its end")
    events = []
    for number, line in enumerate(lines, 1):
        event = event_of(line)
        if event is None:
            raise NoHistory(f"line {number} tells no event: {line[:80]!r}")
        events.append(event)
    return events


def is_refused(answer):
    """Whether an answer says that something was refused, or didn't come to pass."""
    return REFUSED.fullmatch(answer) is not None
