"""Where each part of a drawn ladder stands: the columns of the call, its gateway and each telephone, as wide as their words, and the heights of the rows. It is
installed too, so it knows nothing of this repository."""
import textwrap
from collections import namedtuple

from shared import ladder_rows, telephones
from shared.ladder_rows import ANSWER, CALL, IDLE, LINE, LOST, REQUEST, RESTART, SENT, TONES
from shared.request_words import UNBROKEN

# How wide a letter is at most on the average, how high a line of text, and how much stands round a row, in pixels.
LETTER, TEXT, GAP = 7.3, 14, 8
# How many letters of an arrow's words stand in one line, how many of what stands left of the call, and for how many there is room in any case.
ARROW_LETTERS, LEFT_LETTERS, FEWEST_LETTERS = 46, 28, 12
MIDDLE, MARGIN = 350, 14
# The heights of the names over the lifelines with the line below them, behind how many rows they are said again, and ahead of how many at least.
HEAD, EVERY, FEWEST = 46, 30, 8
# How far from a lifeline stand its tones, and the voices that are heard; how far these are apart; where the first of them is joined below its row, and how
# much lower each other one is.
TONE, VOICE, LANE, JOIN, LOWER = 6, 9, 7, 24, 9
MESSAGES = (REQUEST, ANSWER, SENT, LOST)
# The columns: where the call, the gateway and each line stand, and how wide it all is.
Columns = namedtuple("Columns", "call gateway lines width")
# A row with its texts, each with its kind, at the height of what it draws, from its top to its bottom, and the pairs that are joined from there on.
Placed = namedtuple("Placed", "row texts top y bottom joins")
# A ladder: its rows, the heights of its heads, and where it ends.
Ladder = namedtuple("Ladder", "rows heads bottom")


def wide(text):
    """How wide a text is at most."""
    return round(LETTER * len(text))


def tone(signals):
    """The name of what plays."""
    return ", ".join(TONES[one] for one in signals)


def left_of(row):
    """The lines of text left of the call at a row, but for where it is."""
    return [line for line, _ in texts_of(row)] if row.kind in (CALL, IDLE) else []


def half(name):
    """Half of the box in which a name stands over its lifeline."""
    return wide(name) // 2 + 10


def column(line, steps, rows, others):
    """How much room a line takes left and right of its lifeline."""
    marks = [piece.words for row in rows if row.kind == LINE and row.at == line for piece in row.pieces]
    names = [tone(signals) for signals in telephones.tones(steps, line)]
    left = VOICE + LANE * others + max(map(wide, marks), default=0) + MARGIN
    return max(left, half(line)), max(TONE + 12 + max(map(wide, names), default=0) + MARGIN, half(line))


def letters_left(steps, rows):
    """How many letters stand left of a call, in each line of text."""
    yield from (len(f"{step['before']['state']} {step['before']['phase']}") for step in steps[:1])
    for row in rows:
        place = len(" ".join(row.place)) if row.place else 0
        yield from (place, *(len(line) + len(" → ") + place for line in left_of(row)))


def columns(calls, lines):
    """The columns of the ladders of some calls, each with its steps and its rows."""
    call = round(LETTER * max([FEWEST_LETTERS, *(letters for steps, rows in calls for letters in letters_left(steps, rows))])) + 2 * MARGIN
    gateway, places = call + MIDDLE, {}
    right = gateway + half("its gateway")
    for line in lines:
        sides = [column(line, steps, rows, len(lines) - 1) for steps, rows in calls] or [(half(line), half(line))]
        places[line] = right + max(left for left, _ in sides)
        right = places[line] + max(side for _, side in sides)
    return Columns(call, gateway, places, right + MARGIN)


def texts_of(row):
    """The lines of text of a row, each with its kind."""
    width = ARROW_LETTERS if row.kind in (*MESSAGES, RESTART) else LEFT_LETTERS
    return [(line.replace(UNBROKEN, " "), piece.kind) for piece in row.pieces for line in textwrap.wrap(piece.words, width)]


def placed(row, top, joins):
    """A row whose top is here. What a message says stands upon its arrow."""
    texts = texts_of(row)
    y = top + TEXT * len(texts) + 4 if row.kind in (*MESSAGES, RESTART) else top + TEXT
    last = max(y, top + TEXT * len(texts))
    return Placed(row, texts, top, y, last + GAP + (JOIN - GAP + LOWER * len(joins) if joins else 0), joins)


def ladder(steps, rows, lines, top):
    """The ladder of a call below a height."""
    begun = {}
    for pair, span in telephones.joins(steps, lines):
        begun.setdefault(span.first, []).append((pair, span))
    found, heads, seen = [], [], set()
    for number, row in enumerate(rows):
        if number % EVERY == 0 and (number == 0 or len(rows) - number >= FEWEST):
            heads.append(top)
            top += HEAD
        found.append(placed(row, top, [] if row.step in seen else begun.get(row.step, [])))
        seen.add(row.step)
        top = found[-1].bottom
    return Ladder(found, heads or [top], top + GAP if found else top + HEAD)


def rows_of(steps):
    """The rows of the steps of a line of the report."""
    return [*ladder_rows.rows(steps)]
