"""A run as people hear it, as a drawing: what `mgexplain` tells of a plan, as an SVG picture. Each call has its ladder: itself on the left, its gateway beside
it, and a lifeline for each telephone, which is thick while the receiver is lifted, with its tones and the voices that are heard there. An arrow stands where a
message comes to its end. It is installed too, so it knows nothing of this repository."""
from html import escape

from shared import telephones
from shared.ladder_places import HEAD, JOIN, LANE, LOWER, TEXT, TONE, VOICE, columns, half, ladder, rows_of, tone, wide
from shared.ladder_rows import ANSWER, AT_CALL, CALL, IDLE, LINE, LOST, REQUEST, RESTART, SENT
from shared.request_words import FAINT, REFUSED

LIGHT = "--ink:#1d1f21;--soft:#5f6670;--paper:#fff;--tone:#c9780a;--voice:#1b7f4b;--bad:#b3261e"
DARK = "--ink:#e4e6e8;--soft:#a2a9b2;--paper:#16181a;--tone:#e0a04a;--voice:#55c58a;--bad:#ff8a80"
STYLE = (
    f".ladder{{{LIGHT}}}@media (prefers-color-scheme:dark){{.ladder{{{DARK}}}}}"
    ".ladder text{font:12px sans-serif;fill:var(--ink)}.ladder .head,.ladder .state{font-weight:bold}.ladder .faint{fill:var(--soft)}"
    ".ladder .refused{fill:var(--bad)}.ladder .paper{fill:var(--paper)}.ladder .box{fill:var(--paper);stroke:var(--soft)}"
    ".ladder .side{stroke:var(--soft)}.ladder .down{stroke:var(--soft);stroke-dasharray:2 3}.ladder .up{stroke:var(--ink);stroke-width:4}"
    ".ladder .waits{fill:var(--paper);stroke:var(--ink)}.ladder .tone{fill:var(--tone)}.ladder .voice{fill:var(--voice)}"
    ".ladder .tint{fill:var(--voice);fill-opacity:.1}.ladder .join{stroke:var(--voice);fill:var(--voice);stroke-width:2}"
    ".ladder .arrow{stroke:var(--ink);fill:var(--ink)}.ladder .arrow.refused,.ladder .cut{stroke:var(--bad);fill:var(--bad)}"
    ".ladder .arrow.faint{stroke:var(--soft);fill:var(--soft)}.ladder .lost,.ladder .cut{stroke-dasharray:4 3}"
    ".ladder .mark{fill:var(--paper);stroke:var(--ink)}"
    ".ladder a text{text-decoration:underline dotted}"
)
CALL_HEAD, GATEWAY_HEAD, TITLE, LEGEND = "the call", "its gateway", 30, 26
HINT = "thick: the receiver is lifted; amber: a tone plays; green: who hears whom, one way where one end has an arrow; a box at the call: it waits for a reply"
# How far a message that comes later, or to no end, is drawn.
STUB = 90


def text(x, y, said, style="", anchor="start"):
    """A text; nothing where it is empty."""
    return [f'<text x="{x}" y="{y}" text-anchor="{anchor}" class="{style}">{escape(said)}</text>'] if said else []


def line(x, y, to_x, to_y, style):
    """A line from one place to another."""
    return f'<line x1="{x}" y1="{y}" x2="{to_x}" y2="{to_y}" class="{style}"/>'


def box(x, y, width, height, style):
    """A box, at least a pixel high."""
    return f'<rect x="{x}" y="{y}" width="{width}" height="{max(height, 1)}" class="{style}"/>'


def tip(x, y, way, style):
    """The head of an arrow that ends here, to the right (1) or to the left (-1)."""
    return f'<path d="M{x} {y}l{-8 * way} -4v8z" class="{style}"/>'


class Drawing:
    """The drawing of the ladder of a call: its columns and its places, with the messages to which its arrows lead, by the places of their steps."""

    def __init__(self, across, down, links):
        self.across, self.down, self.links = across, down, links
        self.at = {}
        for placed in down.rows:
            self.at.setdefault(placed.row.step, placed)

    # ---- what lasts

    def height(self, step):
        """Where a step is; the top of the lifelines for none before the first, the end of them for none behind the last."""
        return self.at[step].y

    def top(self):
        """Where the lifelines begin."""
        return self.down.heads[0] + HEAD - 18

    def extent(self, span, lower=0):
        """From where to where a span goes, some of it lower than its step."""
        start = self.top() if span.first is None else self.height(span.first) + lower
        return start, self.down.bottom if span.end is None else self.height(span.end)

    def again(self, start, end):
        """The heads between two heights, behind which something that lasts is named again."""
        return [head + HEAD - 4 for head in self.down.heads if start < head < end]

    def receivers(self, steps, name, before):
        """The lifeline of a telephone."""
        x = self.across.lines[name]
        yield line(x, self.top(), x, self.down.bottom, "down")
        for span in telephones.lifted_spans(steps, name, before):
            start, end = self.extent(span)
            yield line(x, start, x, end, "up")

    def tones(self, steps, name):
        """The tones of a telephone, each with its name."""
        x = self.across.lines[name] + TONE
        for span in telephones.spans(telephones.tones(steps, name)):
            start, end = self.extent(span)
            yield box(x, start, 6, end - start, "tone")
            for y in (start + 11, *self.again(start, end)):
                yield from text(x + 11, y, tone(span.value))

    def waits(self, steps):
        """When the call waits."""
        for span in telephones.spans([step["after"]["phase"] == "waiting" for step in steps]):
            start, end = self.extent(span)
            yield box(self.across.call - 4, start, 8, end - start, "waits")

    def bands(self):
        """The bands between those who hear each other. They are behind all else."""
        for (one, other), span, start, end in self.joined():
            if len(span.value) == 2:
                yield box(self.across.lines[one], start, self.across.lines[other] - self.across.lines[one], end - start, "tint")

    def joined(self):
        """The pairs that are joined, each from where to where."""
        for placed in self.at.values():
            for place, (pair, span) in enumerate(placed.joins):
                yield pair, span, *self.extent(span, JOIN + LOWER * place - 6)

    def voices(self):
        """Who hears whom: a bar where somebody is heard, and where it begins a line to who is heard."""
        names = [*self.across.lines]
        for pair, span, start, end in self.joined():
            yield line(self.across.lines[pair[0]], start, self.across.lines[pair[1]], start, "join")
            for heard, hears in span.value:
                x, way = self.across.lines[hears], 1 if names.index(hears) > names.index(heard) else -1
                lane = [name for name in names if name != hears].index(heard)
                width = 5 if len(span.value) == 2 else 3
                yield tip(x - 3 * way, start, way, "join")
                yield box(x - VOICE - LANE * lane - width // 2, start, width, end - start, "voice")

    # ---- rows

    def linked(self, placed, parts):
        """The parts of a row, which lead to the message that comes to its end there, with all that is said of it."""
        if placed.row.says:
            parts = [f"<g><title>{escape(placed.row.says)}</title>", *parts, "</g>"]
        number = self.links.get(placed.row.step) if placed.row.kind in (REQUEST, ANSWER) else None
        return parts if number is None else [f'<a href="#message-{number}">', *parts, "</a>"]

    def message(self, placed):
        """A message between the call and its gateway, or the beginning of one."""
        call, gateway, row, y = self.across.call, self.across.gateway, placed.row, placed.y
        is_to_gateway = row.kind == REQUEST or row.kind in (SENT, LOST) and row.at == AT_CALL
        start, end, way = (call + 5, gateway, 1) if is_to_gateway else (gateway, call + 5, -1)
        kinds = {kind for _, kind in placed.texts}
        style = "arrow" + (f" {REFUSED}" if REFUSED in kinds else f" {FAINT}" if kinds == {FAINT} else "") + (" lost" if row.kind in (SENT, LOST) else "")
        stop = start + way * STUB if row.kind in (SENT, LOST) else end
        parts = [line(start, y, stop, y, style)]
        parts += text(stop, y + 4, "×", "refused", "middle") if row.kind == LOST else [] if row.kind == SENT else [tip(end, y, way, style)]
        for number, (said, kind) in enumerate(placed.texts):
            parts += text((call + gateway) // 2, y - 5 - TEXT * (len(placed.texts) - 1 - number), said, kind, "middle")
        return parts

    def mark(self, placed):
        """What is done at a telephone."""
        x, y = self.across.lines[placed.row.at], placed.y
        [(said, _)] = placed.texts
        if len(said) == 1:
            return [f'<circle cx="{x}" cy="{y}" r="9" class="mark"/>', *text(x, y + 4, said, "", "middle")]
        before = VOICE + LANE * (len(self.across.lines) - 1)
        shape = {"lifts": f"M{x - 6} {y + 5}l6 -10l6 10z", "hangs up": f"M{x - 6} {y - 5}l6 10l6 -10z"}.get(said, f"M{x - 6} {y}l6 -6l6 6l-6 6z")
        return [f'<path d="{shape}" class="mark"/>', *text(x - before, y + 4, said, "", "end")]

    def beside(self, placed):
        """What the call does by itself, or why a step is idle: left of it. A timer is the call's."""
        x, row = self.across.call, placed.row
        parts = [f'<circle cx="{x}" cy="{placed.y - 4}" r="5" class="mark"/>'] if row.kind == CALL else []
        for number, (said, kind) in enumerate(placed.texts):
            is_last = row.place and number == len(placed.texts) - 1
            y, end = placed.y + TEXT * number, f' → <tspan class="state">{escape(said_of(row.place))}</tspan>' if is_last else ""
            parts.append(f'<text x="{x - 12}" y="{y}" text-anchor="end" class="{kind}">{escape(said)}{end}</text>')
        return parts

    def cut(self, placed):
        """A restart of all gateways."""
        parts = [line(self.across.call, placed.y, self.across.width - 14, placed.y, "cut")]
        for number, (said, _) in enumerate(placed.texts):
            parts += text((self.across.call + self.across.gateway) // 2, placed.y - 5 - TEXT * (len(placed.texts) - 1 - number), said, "refused", "middle")
        return parts

    def drawn_row(self, placed):
        """The parts of a row."""
        draw = {LINE: self.mark, RESTART: self.cut, CALL: self.beside, IDLE: self.beside}.get(placed.row.kind, self.message)
        return self.linked(placed, draw(placed))

    def states(self, first):
        """The name of the state left of the call, where it becomes another one at a message or at a restart."""
        now = first
        for placed in self.down.rows:
            place = placed.row.place or now
            if said_of(place) != said_of(now) and placed.row.kind != CALL:
                yield from text(self.across.call - 12, placed.y + 4, said_of(place), "state", "end")
            now = place

    def heads(self, now):
        """The names over the lifelines, and where the call is then."""
        across, rows = self.across, self.down.rows
        for head in self.down.heads:
            before = [placed.row.place for placed in rows if placed.row.place and placed.y < head]
            names = {CALL_HEAD: across.call, GATEWAY_HEAD: across.gateway, **across.lines}
            for name, x in names.items():
                yield box(x - half(name), head + 4, 2 * half(name), 20, "box")
                yield from text(x, head + 18, name, "head", "middle")
            yield from text(across.call - 12, head + HEAD - 4, said_of(before[-1] if before else now), "state", "end")


def said_of(place):
    """Where a call is: its state, and the phase where that is neither of the usual two."""
    return place[0] if place[1] in ("resting", "waiting") else f"{place[0]} {place[1]}"


def drawn_call(told, across, down, begun):
    """The parts of the ladder of a call: its steps and the receivers that were lifted before them."""
    steps, before, links = begun
    drawing, first = Drawing(across, down, links), (steps[0]["before"]["state"], steps[0]["before"]["phase"]) if steps else None
    parts = text(14, down.heads[0] - 10, told, "head")
    if not steps:
        return parts
    parts += [*drawing.bands(), *(line(x, drawing.top(), x, down.bottom, "side") for x in (across.call, across.gateway)), *drawing.waits(steps)]
    for name in across.lines:
        parts += [*drawing.receivers(steps, name, before), *drawing.tones(steps, name)]
    parts += drawing.voices()
    for placed in down.rows:
        parts += drawing.drawn_row(placed)
    return [*parts, *drawing.states(first), *drawing.heads(first)]


def calls_of(page):
    """The calls that are told, each with its line of the report, its steps and the receivers that are lifted before them; one that began on the lines of
    another has them as that one left them."""
    before, call = frozenset(), None
    for each in page["report"]:
        if "steps" in each:
            before = before if each["call"] == call else frozenset()
            yield each["line"], each["steps"], before
            before, call = [before, *telephones.lifted(each["steps"], before)][-1], each["call"]


def picture(calls, lines, links):
    """The picture of the ladders of some calls, one below the other."""
    rows = [rows_of(steps) for _, steps, _ in calls]
    across = columns([(steps, these) for (_, steps, _), these in zip(calls, rows)], lines)
    parts, top = [], 0
    for (told, steps, before), these, linked in zip(calls, rows, links):
        down = ladder(steps, these, lines, top + TITLE)
        parts += drawn_call(told, across, down, (steps, before, linked))
        top = down.bottom
    width, height = max(across.width, wide(HINT)), top + LEGEND
    head = f'<svg xmlns="http://www.w3.org/2000/svg" class="ladder" width="{width}" height="{height}" viewBox="0 0 {width} {height}">'
    return "\n".join([head, f"<style>{STYLE}</style>", box(0, 0, width, height, "paper"), *parts, *text(14, height - 8, HINT, "faint"), "</svg>", ""])


def drawn(page, lines):
    """The picture of a run on these lines, as the text of an SVG file."""
    calls = [*calls_of(page)]
    return picture(calls, lines, [{}] * len(calls))


def drawn_apart(page, lines, links):
    """A picture for each call that is told. `links` has for each the messages to which its arrows lead, by the places of their steps."""
    return [picture([call], lines, [linked]) for call, linked in zip(calls_of(page), links)]
