"""The picture of tools/season: for each b how long a part lasts, the erases of its busiest block and the tail offset over the season. SVG, by itself."""
import html
import itertools
import math

from desk import counted

INK, FAINT, GRID, MARK, BAD, OTHER, FILL, FILL_MARK = "#1c2430", "#5b6675", "#dfe4ea", "#0b62c4", "#b3261e", "#8a97a8", "#eef1f4", "#dbe9fa"
WIDTH, LEFT, RIGHT = 960, 96, 786
LANE, LANE_HEIGHT, BAR, SPAN = 46, 36, 25, 428
# beyond so many times the wanted years a bar is cut short
LONGEST = 3
# characters of a file's name, and of a title in large letters, that have room whatever they are
MOST_NAME, MOST_TITLE = 46, 80


class Sheet:
    def __init__(self):
        self.parts = []

    def text(self, x, y, what, size=13, fill=INK, anchor="start", bold=False):
        self.parts.append('<text x="%.1f" y="%.1f" font-size="%d" fill="%s" text-anchor="%s"%s>%s</text>'
                          % (x, y, size, fill, anchor, ' font-weight="bold"' if bold else "", html.escape(what)))

    def heading(self, y, what, more):
        self.text(LEFT, y, what, 16, bold=True)
        self.text(LEFT, y + 18, more, 12, FAINT)

    def line(self, x1, y1, x2, y2, stroke=GRID, dashed=False):
        self.parts.append('<line x1="%.1f" y1="%.1f" x2="%.1f" y2="%.1f" stroke="%s"%s/>' % (x1, y1, x2, y2, stroke, ' stroke-dasharray="4 3"' if dashed else ""))

    def bar(self, x, y, width, height, fill):
        self.parts.append('<rect x="%.1f" y="%.1f" width="%.1f" height="%.1f" fill="%s"/>' % (x, y, width, height, fill))

    def path(self, d, stroke, width, fill="none"):
        self.parts.append('<path d="%s" fill="%s" stroke="%s" stroke-width="%.1f" stroke-linejoin="round"/>' % (d, fill, stroke, width))

    def curve(self, low, points, *how):
        """from the left edge at a height, level up to each point and then to its height, to the right edge"""
        d, x, y = ["M%.1f %.1f" % (LEFT, low)], LEFT, low
        for to_x, to_y in points:
            if to_y != y:
                d += ["H%.1f" % to_x] * (to_x != x) + ["V%.1f" % to_y]
                x, y = to_x, to_y
        self.path("".join(d) + "H%.1f" % RIGHT, *how)

    def triangle(self, x, y, fill):
        self.parts.append('<path d="M%.1f %.1f l-4 8 h8 z" fill="%s"/>' % (x, y, fill))

    def whole(self, height):
        return ('<svg xmlns="http://www.w3.org/2000/svg" viewBox="0 0 %d %d" width="%d" height="%d" font-family="DejaVu Sans, Verdana, Helvetica, Arial, sans-serif">\n'
                '<rect width="100%%" height="100%%" fill="#ffffff"/>\n%s\n</svg>\n' % (WIDTH, height, WIDTH, height, "\n".join(self.parts)))


def number(value):
    return "{:,}".format(value)


def colour(report, row):
    return MARK if row is report.chosen else OTHER if row.takes else BAD


def weight(report, row):
    return 2.4 if row is report.chosen else 1.4


def round_step(most, marks):
    """1, 2 or 5, or ten times one of them, and so on: with so many marks at most an axis comes up to its end"""
    for place in itertools.count():
        for by in (1, 2, 5):
            if most <= marks * by * 10 ** place:
                return by * 10 ** place


def place_of(report):
    return lambda time: LEFT + (RIGHT - LEFT) * time / report.length


def time_axis(sheet, report, y):
    """under a panel; gives the place of a time"""
    x_of = place_of(report)
    unit, minutes = ("days", 1440) if report.length > 4 * 1440 else ("hours", 60) if report.length > 4 * 60 else ("minutes", 1)
    length = report.length // minutes
    # long numbers want more room
    step = next(step for step in (1, 2, 3, 4, 6, 12) if length <= 12 * step) if unit == "hours" else round_step(length, 12 if length < 100000 else 6)
    for place in range(0, length + 1, step):
        sheet.text(x_of(place * minutes), y + 15, number(place), 11, FAINT, "middle")
    sheet.text(RIGHT + 18, y + 15, unit, 11, FAINT)
    return x_of


def apart(places, gap, lowest):
    """places of labels, none below the lowest, each so far from the next that they do not meet; they go up only where there is no room further down"""
    order, out = sorted(range(len(places)), key=lambda i: (places[i], i)), list(places)
    for above, i in zip(order, order[1:]):
        out[i] = max(out[i], out[above] + gap)
    below = lowest + gap
    for i in reversed(order):
        out[i] = below = min(out[i], below - gap)
    return out


def shortened(name):
    """in the middle"""
    half = MOST_NAME // 2 - 1
    return name if len(name) <= MOST_NAME else "%s..%s" % (name[:half], name[-half:])


# ---- the panels; each gives the height at which it ends


def titled(sheet, report):
    choice = report.choice_text()
    sheet.text(LEFT, 40, "N" + choice[1:] if choice.startswith("no") else choice, 18 if len(choice) <= MOST_TITLE else 15, MARK if report.chosen else BAD, bold=True)
    for y, what in ((62, "%s: a season of %s" % (shortened(report.name), report.length_text())), (80, report.steps_text()),
                    (98, "b is the number of blocks, of 4,096 bytes each, that hold variables; the store takes 2b + 1 blocks of the part")):
        sheet.text(LEFT, y, what, 13, FAINT)
    return 98


def no_room_text(row):
    refused = row.without_room()
    return "no room for %s: refused, rule 13" % counted(len(refused), "set") if refused else "no room in another season: rule 13"


def lasting(sheet, report, y):
    full, end = LONGEST * report.wanted or 1, y + 32 + BAR * len(report.rows)
    times = "once" if report.cycles == 1 else number(report.cycles) + " times"
    arrow = "; a bar that ends in an arrow is longer" * any(row.takes and row.years > full for row in report.rows)
    sheet.heading(y, "How long the part lasts", "years until the busiest block has been erased %s%s" % (times, arrow))
    y += 32
    for top, row in zip(range(y, end, BAR), report.rows):
        chosen, reach = row is report.chosen, max(1.0, float(min(row.years, full)) / full * SPAN) if row.takes else 0.0
        sheet.bar(LEFT, top + 3, reach, BAR - 8, colour(report, row))
        if row.takes and row.years > full:
            sheet.path("M%.1f %.1fl8 7.5l-8 7.5" % (LEFT + reach - 14, top + 4), "#ffffff", 2)
        sheet.text(LEFT - 12, top + 15, "b = %d" % row.b, 13, INK, "end", chosen)
        told = "%s years" % report.years_text(row) if row.takes else no_room_text(row)
        sheet.text(LEFT + SPAN + 16, top + 15, told, 12, MARK if chosen else INK if row.takes else BAD, bold=chosen)
        sheet.text(WIDTH - 20, top + 15, "%d KiB of the part" % (4 * (2 * row.b + 1)), 12, FAINT, "end")
    wanted = LEFT + report.wanted / full * SPAN
    sheet.line(wanted, y - 2, wanted, end + 2, INK, dashed=True)
    sheet.text(wanted, end + 15, "%s wanted" % counted(report.wanted, "year"), 12, INK, "middle")
    return end + 15


def wearing(sheet, report, y):
    bound = any(row.start_ups for row in report.rows)
    sheet.heading(y, "Erases of the busiest block, over the season", "one for each compaction%s" % (
        ", and at most one for each start-up that cleared away what a cut had left" if bound else ""))
    y, height = y + 32, 170
    most = max(1, *(row.wear[-1] for row in report.rows))
    step = round_step(most, 6)
    top = step * math.ceil(most / step)
    y_of = lambda erases: y + height - height * erases / top
    for erases in range(0, top + 1, step):
        sheet.line(LEFT, y_of(erases), RIGHT, y_of(erases))
        sheet.text(LEFT - 8, y_of(erases) + 4, number(erases), 11, FAINT, "end")
    x_of = time_axis(sheet, report, y + height)
    labels = apart([y_of(row.wear[-1]) for row in report.rows], 15, y + height - 3)
    for row, label in sorted(zip(report.rows, labels), key=lambda one: one[0] is report.chosen):
        sheet.curve(y_of(0), [(x_of(step.time), y_of(wear)) for step, wear in zip(report.steps, row.wear)], colour(report, row), weight(report, row))
        sheet.line(RIGHT + 2, y_of(row.wear[-1]), RIGHT + 14, label, OTHER)
        sheet.text(RIGHT + 18, label + 4, "b = %d: %s" % (row.b, report.erases_text(row)), 12, colour(report, row) if row.takes is False or row is report.chosen else INK,
                   bold=row is report.chosen)
    return y + height + 15


def filling(sheet, report, y):
    sheet.heading(y, "How far the region is filled, over the season", "the tail offset, from 0 to the region's end; it falls where the region is compacted")
    if any(row.by_start_ups for row in report.rows):
        sheet.text(RIGHT + 18, y + 18, "compactions", 12, FAINT)
    y += 30
    for row in report.rows:
        fill_lane(sheet, report, row, y)
        y += LANE
    y += LANE_HEIGHT - LANE
    x_of = time_axis(sheet, report, y)
    marked = [("a set was cut", INK, report.cuts)] * bool(report.cuts) + [("no room for a set", BAD, ())] * any(row.without_room() for row in report.rows)
    for told, fill, steps in marked:
        y += 18
        for x in (*(x_of(step.time) for step in steps), RIGHT + 22):
            sheet.triangle(x, y + 6, fill)
        sheet.text(RIGHT + 32, y + 14, told, 12, fill)
    return y + 15


def fill_lane(sheet, report, row, y):
    """for one b, from 0 at the bottom to the region's end"""
    bottom, chosen = y + LANE_HEIGHT, row is report.chosen
    x_of, y_of = place_of(report), lambda tail: bottom - LANE_HEIGHT * tail / row.size
    sheet.line(LEFT, y, RIGHT, y)
    points = [(x_of(step.time), y_of(tail)) for step, tail in zip(report.steps, row.tails)]
    sheet.curve(bottom, [*points, (RIGHT, bottom)], colour(report, row), weight(report, row) - 0.4, FILL_MARK if chosen else FILL)
    # the right edge is no fall of the curve
    sheet.bar(RIGHT - 1.2, y - 2, 3, LANE_HEIGHT + 4, "#ffffff")
    sheet.line(LEFT, bottom, RIGHT, bottom)
    sheet.text(LEFT - 12, y + 16, "b = %d" % row.b, 13, INK, "end", chosen)
    sheet.text(LEFT - 12, y + 30, number(row.size) + " bytes", 11, FAINT, "end")
    told = ["%d by sets," % row.compactions, "%d by start-ups" % row.by_start_ups] if row.by_start_ups else [counted(row.compactions, "compaction")]
    for place, what in enumerate(told):
        sheet.text(RIGHT + 18, y + 30 - 7 * len(told) + 15 * place, what, 12, MARK if chosen else INK, bold=chosen)
    for step in row.without_room():
        sheet.triangle(x_of(step.time), bottom - 8, BAD)


def drawn(report):
    sheet, gap = Sheet(), 40
    y = titled(sheet, report)
    for panel in (lasting, wearing, filling):
        y = panel(sheet, report, y + gap)
    return sheet.whole(math.ceil(y + 10))
