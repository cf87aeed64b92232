"""The picture of a run of one or two variables, as SVG.

Two variables give a square with the boxes in it, one variable a band. Groups of
boxes that touch are ringed where they are small, numbered and listed where they
are few, and enlarged where they are both.
"""

import math
from xml.sax.saxutils import escape

from .caption import amount, answer_words, note_lines, outward, polynomial_lines
from .groups import FULL, groups_of, middle
from .svg import FAINT, GRID, HATCH, INK, UNTOLD, box_style, line, rectangle, tag, text
from .system_file import DEFAULT_NAMES

WIDTH = 880
LEFT = 76
SIDE = 520           # of the square
BAND = 72            # height of the band
BAND_LENGTH = WIDTH - 2 * LEFT
LENS = 80            # side of an enlarged view
MOST_NUMBERED = 8    # groups
MOST_RINGED = 60
MOST_ENLARGED = 4


class Picture:
    def __init__(self, name, system, result):
        self.name = "".join(letter if letter.isprintable() else "?" for letter in name)
        self.system = system
        self.result = result
        self.directions = system.variables
        self.groups = groups_of([box.spans(self.directions) for box in result.kept])
        self.parts = []
        self.y = 0

    def add(self, *parts):
        self.parts.extend(parts)

    def draw(self):
        self.caption()
        if self.directions == 2:
            top = self.y + 12
            self.square(top)
            bottom = self.panel(LEFT + SIDE + 36, top + 4)
            height = max(top + SIDE + 64, bottom + 16)
        else:
            top = self.y + 44
            self.band(top)
            height = self.panel(LEFT, top + BAND + 72) + 16
        return self.whole(height)

    def whole(self, height):
        words = "%s: %s" % (self.name, self.result.line)
        inside = [tag("title", escape(words)), HATCH,
                  rectangle(0, 0, WIDTH, height, fill="#ffffff")] + self.parts
        return ('<?xml version="1.0" encoding="UTF-8"?>\n'
                + tag("svg", "\n" + "\n".join(inside) + "\n",
                      xmlns="http://www.w3.org/2000/svg", width=WIDTH, height=height,
                      viewBox="0 0 %d %d" % (WIDTH, height),
                      font_family="DejaVu Sans, Verdana, Arial, sans-serif") + "\n")

    def caption(self):
        self.add(text(LEFT, 42, self.name, size=20, font_weight="bold"))
        y = 70
        for polynomial in self.system.polynomials:
            for number, words in enumerate(polynomial_lines(polynomial)):
                self.add(text(LEFT + (18 if number else 0), y, words, size=15))
                y += 22
        y += 4
        self.add(text(LEFT, y, self.result.line, size=14, font_weight="bold"),
                 text(WIDTH - LEFT, y, answer_words(self.result), size=14, fill=FAINT,
                      text_anchor="end"))
        y += 16
        note = note_lines(self.result)
        if note:
            self.add(rectangle(LEFT, y, WIDTH - 2 * LEFT, 54, rx=5, fill="#fdecea",
                               stroke="#c0271c", stroke_width=1.5),
                     text(LEFT + 16, y + 23, note[0], size=15, fill="#9c1b12",
                          font_weight="bold"),
                     text(LEFT + 16, y + 43, note[1], size=14, fill="#9c1b12"))
            y += 66
        self.y = y

    def ground(self):
        """White where all that is not drawn was dropped."""
        untold = self.result.waiting_count and not self.result.waiting
        return UNTOLD if untold else "#ffffff"

    def boxes(self):
        """The spans and the mark of each box, in the order of drawing."""
        return [(box.spans(self.directions), box.mark)
                for box in self.result.waiting + self.result.kept]

    # Two variables

    def square(self, top):
        def across(value):
            return LEFT + value * SIDE / FULL

        def up(value):
            return top + SIDE - value * SIDE / FULL

        self.add(rectangle(LEFT, top, SIDE, SIDE, fill=self.ground()))
        for eighth in range(9):
            value = eighth * FULL // 8
            long = eighth % 2 == 0
            if 0 < eighth < 8:
                shade = {"stroke": GRID, "width": 1.0 if long else 0.5}
                self.add(line(across(value), up(0), across(value), up(FULL), **shade),
                         line(across(0), up(value), across(FULL), up(value), **shade))
            tick = 7 if long else 4
            self.add(line(across(value), up(0), across(value), up(0) + tick),
                     line(across(0), up(value), across(0) - tick, up(value)))
            if long:
                label = "%g" % (eighth / 8)
                self.add(text(across(value), up(0) + 23, label, size=13, text_anchor="middle"),
                         text(across(0) - 12, up(value) + 4.5, label, size=13,
                              text_anchor="end"))
        self.add(text(across(FULL / 2), up(0) + 46, DEFAULT_NAMES[0], size=16,
                      font_style="italic", text_anchor="middle"),
                 text(across(0) - 56, up(FULL / 2) + 5, DEFAULT_NAMES[1], size=16,
                      font_style="italic", text_anchor="middle"))
        for ((left, right), (low, high)), mark in self.boxes():
            self.add(rectangle(across(left), up(high), across(right) - across(left),
                               up(low) - up(high), **box_style(mark)))
        self.add(rectangle(LEFT, top, SIDE, SIDE, fill="none", stroke=INK, stroke_width=1.5))
        self.rings(across, up)

    def rings(self, across, up):
        if len(self.groups) > MOST_RINGED:
            return
        for number, group in enumerate(self.groups, 1):
            x, y = middle(group.spans) if group.is_small(SIDE) else group.anchor()
            x, y = across(x), up(y)
            radius = 12.0
            if group.is_small(SIDE):
                across_it = math.hypot(*(high - low for low, high in group.spans))
                radius = across_it / 2 * SIDE / FULL + 8
                self.add(tag("circle", cx=x, cy=y, r=radius, fill="none", stroke=INK,
                             stroke_width=1.2))
            if self.numbered():
                side = -1 if x > LEFT + SIDE - 40 else 1
                below = y < up(FULL) + 30
                self.add(self.number_at(x + side * (radius + 1), y + radius + 9 if below
                                        else y - radius + 3, number,
                                        "start" if side > 0 else "end"))

    def numbered(self):
        return len(self.groups) <= MOST_NUMBERED

    def number_at(self, x, y, number, anchor):
        return text(x, y, str(number), size=15, font_weight="bold", text_anchor=anchor,
                    stroke="#ffffff", stroke_width=4, paint_order="stroke",
                    stroke_linejoin="round")

    # One variable

    def band(self, top):
        def across(value):
            return LEFT + value * BAND_LENGTH / FULL

        self.add(rectangle(LEFT, top, BAND_LENGTH, BAND, fill=self.ground()))
        for sixteenth in range(17):
            value = sixteenth * FULL // 16
            long = sixteenth % 2 == 0
            if 0 < sixteenth < 16 and long:
                self.add(line(across(value), top, across(value), top + BAND, stroke=GRID))
            self.add(line(across(value), top + BAND, across(value),
                          top + BAND + (7 if long else 4)))
            if long:
                self.add(text(across(value), top + BAND + 23, "%g" % (sixteenth / 16), size=13,
                              text_anchor="middle"))
        self.add(text(across(FULL / 2), top + BAND + 46, DEFAULT_NAMES[0], size=16,
                      font_style="italic", text_anchor="middle"))
        for ((left, right),), mark in self.boxes():
            self.add(rectangle(across(left), top, across(right) - across(left), BAND,
                               **box_style(mark)))
        self.add(rectangle(LEFT, top, BAND_LENGTH, BAND, fill="none", stroke=INK,
                           stroke_width=1.5))
        if self.numbered():
            for number, group in enumerate(self.groups, 1):
                x = across(middle(group.spans)[0])
                self.add(tag("path", d="M%.2f %.2f l-6 -9 h12 z" % (x, top - 4), fill=INK),
                         self.number_at(x, top - 18, number, "middle"))

    # What the colours mean, and the list of groups

    def panel(self, x, y):
        marks = [box.mark for box in self.result.kept]
        keys = []
        for mark, meaning in ((1, ("kept at full depth", "(mark 1)")),
                              (2, ("kept early: its numbers are", "too large to cut (mark 2)"))):
            if marks.count(mark):
                keys.append((box_style(mark), meaning))
        dropped = ({"fill": "#ffffff", "stroke": FAINT}, ("dropped: no common zero",))
        if self.result.waiting:
            keys += [(box_style(0), ("waiting: not visited yet",)), dropped]
        elif self.result.waiting_count:
            keys.append(({"fill": UNTOLD, "stroke": "#cdbf85"}, ("dropped or waiting:",
                                                               "the list does not tell")))
        else:
            keys.append(dropped)
        for style, meaning in keys:
            self.add(rectangle(x, y, 16, 16, **style))
            for words in meaning if self.directions == 2 else [" ".join(meaning)]:
                self.add(text(x + 26, y + 13, words, size=13))
                y += 17
            y += 9
        y += 10
        return self.list_groups(x, y)

    def list_groups(self, x, y):
        count = len(self.groups)
        if count == 0:
            self.add(text(x, y + 14, "No box was kept.", size=14, font_weight="bold"))
            return y + 30
        words = amount(count, "group", "groups") + " of kept boxes"
        self.add(text(x, y + 14, words, size=14, font_weight="bold"))
        y += 24
        if not self.numbered():
            return y
        for number, group in enumerate(self.groups, 1):
            y += 16
            self.add(text(x, y, str(number), size=13, font_weight="bold"))
            for name, span in zip(DEFAULT_NAMES, group.spans):
                self.add(text(x + 26, y, name, size=13, font_style="italic"),
                         text(x + 42, y, outward(span), size=13))
                y += 18
            boxes = amount(len(group.boxes), "box", "boxes")
            if self.directions == 1:
                y -= 18
                self.add(text(x + 190, y, boxes, size=13, fill=FAINT))
            else:
                self.add(text(x + 26, y, boxes, size=13, fill=FAINT))
            y += 8
            if self.directions == 2 and count <= MOST_ENLARGED and group.is_small(SIDE):
                self.enlarged(x + 26, y, group)
                y += LENS + 10
        return y

    def enlarged(self, x, y, group):
        """A small group and a little around it, LENS pixels wide."""
        width = max(high - low for low, high in group.spans) * 1.6
        corner = [value - width / 2 for value in middle(group.spans)]

        def inside(spans):
            """Pixels of a part of the plane, cut off at the edges of the view."""
            (left, right), (low, high) = [
                [min(max((value - start) / width, 0.0), 1.0) * LENS for value in span]
                for span, start in zip(spans, corner)]
            return x + left, y + LENS - high, right - left, high - low

        self.add(rectangle(x, y, LENS, LENS, fill="#c9d1d6"),
                 rectangle(*inside([(0, FULL), (0, FULL)]), fill=self.ground()))
        for spans, mark in self.boxes():
            left, top, across, up = inside(spans)
            if across > 0 and up > 0:
                self.add(rectangle(left, top, across, up, **box_style(mark)))
        self.add(rectangle(x, y, LENS, LENS, fill="none", stroke=INK, stroke_width=1.2))


def picture(name, system, result):
    """The SVG text for a system of one or two variables and a result of it."""
    return Picture(name, system, result).draw()
