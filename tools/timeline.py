#!/usr/bin/env python3
"""Draws a printed history as an SVG picture: a column for each event, a lane for each rank and each dataset.

usage: timeline.py < HISTORY > PICTURE.svg

Each event has one mark, with its line as the tooltip. The status is 65 where the input is no history, 64 after a wrong
call. Python 3.8 or later, its standard library alone.
"""
import html
import re
import sys

import history

STEP, LANE, LEFT, TOP = 18, 22, 96, 92
GREEN, RED, AMBER, BLUE, GREY, INK = "#2f9e44", "#e03131", "#f08c00", "#1971c2", "#868e96", "#343a40"
LEGEND = [
    (GREEN, "a call, until its answer; a dataset that is whole"), (RED, "refused, stopped or lost"),
    (AMBER, "a dataset on its way in or out"), (BLUE, "a rank's own step; a dataset in the index"),
]
# Behind these events a dataset in cache is whole, or on its way.
WHOLE, ON_ITS_WAY = {"settled", "mended", "fetched"}, {"sealing", "evicting", "discarding", "failing"}
GONE = {"evicted", "discarded", "failed"}


class Picture:
    """The picture of some events. Bars come first, so that the marks stand above them."""

    def __init__(self, events):
        self.events, self.bars, self.marks = events, [], []
        # Since when ranks wait, datasets are in cache (with a colour) and in the index, and the run goes on.
        self.waits, self.stands, self.indexed, self.begun = {}, {}, {}, None
        ranks, sets = set(), []
        for event in events:
            if event.fields.get("rank"):
                ranks.add(int(event.fields["rank"]))
            for which in datasets_of(event):
                if which not in sets:
                    sets.append(which)
        names = [("rank", rank) for rank in sorted(ranks)] + [None] + [("dataset", which) for which in sets] + [None, ("site", "")]
        self.lanes = {name: TOP + at * LANE for at, name in enumerate(names) if name}
        self.bottom = TOP + len(names) * LANE
        self.width, self.height = max(LEFT + (len(events) + 5) * STEP, 860), self.bottom + 62

    def x(self, column):
        return LEFT + column * STEP

    def shape(self, name, text="", **attributes):
        words = "".join(f' {key.replace("_", "-")}="{value}"' for key, value in attributes.items())
        return f"<{name}{words}>{html.escape(text)}</{name}>" if text else f"<{name}{words}/>"

    def mark(self, at, *shapes):
        """The one mark of an event."""
        title = f"<title>{html.escape(self.events[at].line)}</title>"
        self.marks.append(f'<g class="event" id="e{at + 1}">{title}{"".join(shapes)}</g>')

    def bar(self, lane, start, end, colour, thick, below=0):
        y, width = self.lanes[lane] - thick // 2 + below, max(self.x(end) - self.x(start), 2)
        self.bars.append(self.shape("rect", x=self.x(start), y=y, width=width, height=thick, rx=thick // 3, fill=colour, fill_opacity=0.6))

    def band(self, start, end):
        """A run, behind all."""
        width, height = self.x(end) - self.x(start), self.bottom - TOP + 6
        self.bars.insert(0, self.shape("rect", x=self.x(start), y=TOP - 14, width=width, height=height, fill=BLUE, fill_opacity=0.05))

    def dot(self, at, lane, colour, r=4):
        self.mark(at, self.shape("circle", cx=self.x(at), cy=self.lanes[lane], r=r, fill=colour, stroke="white"))

    def rule(self, at, colour, text, row):
        line = self.shape("line", x1=self.x(at), x2=self.x(at), y1=TOP - 14, y2=self.bottom - 8, stroke=colour, stroke_width=1.5)
        self.mark(at, line, self.shape("text", text, x=self.x(at) + 3, y=self.bottom + 4 + 11 * row, font_size=9, fill=colour))

    def decided(self, at, event):
        x, answer = self.x(at), event.fields["answer"]
        colour = RED if history.is_refused(answer) else GREEN
        last = max((y for (kind, _), y in self.lanes.items() if kind == "rank"), default=TOP)
        line = self.shape("line", x1=x, x2=x, y1=TOP - 14, y2=last + 8, stroke=colour, stroke_dasharray="2,3", stroke_width=1.5)
        turned = f"rotate(-30 {x + 2} {TOP - 18})"
        words = f'{event.fields["call"]}: {answer[:40]}'
        self.mark(at, line, self.shape("text", words, x=x + 2, y=TOP - 18, font_size=9, fill=INK, transform=turned))

    def draw(self):
        for at, event in enumerate(self.events):
            lane = lane_of(event.fields)
            if event.kind in ("run", "stop", "lost"):
                self.edge(at, event)
            elif event.kind == "decided":
                self.decided(at, event)
            elif lane[0] == "rank":
                self.of_rank(at, event, lane)
            elif lane[0] == "dataset":
                self.of_dataset(at, event.kind, lane)
            else:
                self.of_site(at, event)
        self.close(self.stands, self.indexed, len(self.events))

    def edge(self, at, event):
        """A run begins or is over, or a node is lost."""
        if event.kind == "run":
            self.begun = at
            self.rule(at, BLUE, event.line, 0)
        elif event.kind == "lost":
            self.rule(at, RED, event.line, 2)
        else:
            if self.begun is not None:
                self.band(self.begun, at)
            self.rule(at, GREY if event.fields["cause"] == "ended" else RED, event.line, 1)
            self.waits, self.begun = {}, None

    def of_rank(self, at, event, lane):
        """A rank calls, takes its answer, or does a step of its own."""
        refused = history.is_refused(event.fields.get("answer") or "")
        if event.kind == "call":
            self.waits[lane] = at
        elif event.kind == "reply":
            self.bar(lane, self.waits.pop(lane, at), at, RED if refused else GREEN, 8)
        own = event.kind == "local"
        self.dot(at, lane, RED if refused else BLUE if own else GREEN, 4 if own else 3)

    def of_dataset(self, at, kind, lane):
        if kind in WHOLE | ON_ITS_WAY | GONE and lane in self.stands:
            self.close({lane: self.stands.pop(lane)}, {}, at)
        if kind in WHOLE | ON_ITS_WAY:
            self.stands[lane] = (at, GREEN if kind in WHOLE else AMBER)
        if kind == "failed" and lane in self.indexed:
            self.close({}, {lane: self.indexed.pop(lane)}, at)
        if kind == "flushed":
            self.indexed[lane] = at
        self.dot(at, lane, RED if kind in ("failed", "discarded", "givenup") else AMBER if kind in ON_ITS_WAY else GREEN)

    def of_site(self, at, event):
        """What was found, the clock, or what stands between two runs."""
        fields = event.fields
        if event.kind == "found":
            self.close(self.stands, self.indexed, at)
            self.stands = {("dataset", row.split(":")[0]): (at, AMBER) for row in fields["kept"].split()}
            self.indexed = {("dataset", row.split(":")[0]): at for row in fields["index"].split() if row.endswith(":flushed")}
        elif event.kind == "scavenged" and fields["answer"] not in (None, "none"):
            self.indexed[("dataset", fields["answer"])] = at
        refused = history.is_refused(fields.get("answer") or "") or fields.get("cause")
        self.dot(at, ("site", ""), RED if refused else GREY)

    def close(self, stands, indexed, at):
        """Ends the bars of datasets in cache, and of those in the index."""
        for lane, (start, colour) in stands.items():
            self.bar(lane, start, at, colour, 12)
        for lane, start in indexed.items():
            self.bar(lane, start, at, BLUE, 2, below=8)

    def frame(self):
        for (kind, which), y in self.lanes.items():
            yield self.shape("line", x1=LEFT - 6, x2=self.width - 10, y1=y, y2=y, stroke="#dee2e6")
            yield self.shape("text", f"{kind} {which}".strip(), x=8, y=y + 3, font_size=10, fill=INK)
        x = 8.0
        for colour, words in LEGEND:
            yield self.shape("rect", x=round(x), y=self.bottom + 40, width=9, height=9, fill=colour)
            yield self.shape("text", words, x=round(x) + 13, y=self.bottom + 48, font_size=9, fill=INK)
            x += 34 + 4.7 * len(words)

    def text(self):
        self.draw()
        head = f'<svg xmlns="http://www.w3.org/2000/svg" width="{self.width}" height="{self.height}" font-family="sans-serif">'
        paper = self.shape("rect", width="100%", height="100%", fill="white")
        return "\n".join([head, paper, *self.frame(), *self.bars, *self.marks, "</svg>", ""])


def lane_of(fields):
    """The lane of an event: its rank's, its dataset's, or the site's."""
    if fields.get("rank"):
        return ("rank", int(fields["rank"]))
    return ("dataset", fields["set"]) if fields.get("set") else ("site", "")


def datasets_of(event):
    """The datasets that have a lane for this event's sake."""
    if event.kind == "found":
        return re.findall(r" (\d+\.\d+):", event.line)
    return [it for it in (event.fields.get("set"), event.kind == "scavenged" and event.fields["answer"]) if it and it != "none"]


def main(words):
    if words:
        print(__doc__.strip(), file=sys.stderr)
        return 64
    try:
        events = history.read(sys.stdin.buffer.read().decode("latin-1"))
    except history.NoHistory as error:
        print(f"timeline.py: this is no history: {error}", file=sys.stderr)
        return 65
    sys.stdout.write(Picture(events).text())
    return 0


if __name__ == "__main__":
    sys.exit(main(sys.argv[1:]))
