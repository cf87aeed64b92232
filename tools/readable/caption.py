"""The words of the picture: polynomials, answer, the note on a list that is
not whole, and where a group of boxes lies."""

from .groups import FULL
from .polynomial_text import term_texts

CAPTION_LETTERS = 92
CAPTION_LINES = 4
SUPERSCRIPTS = "\u2070\u00b9\u00b2\u00b3\u2074\u2075\u2076"


def wrapped(terms):
    """The terms of one polynomial in lines; a very long one is cut short."""
    lines = [""]
    for term in terms + ["= 0"]:
        if lines[-1] and len(lines[-1]) + 1 + len(term) > CAPTION_LETTERS:
            lines.append("")
        lines[-1] += (" " if lines[-1] else "") + term
    if len(lines) > CAPTION_LINES:
        lines[CAPTION_LINES - 1:] = ["\u2026 (%d terms in all) = 0" % len(terms)]
    return lines


def polynomial_lines(polynomial):
    return wrapped(term_texts(polynomial, minus="\u2212", between="",
                              power=lambda exponent: SUPERSCRIPTS[exponent]))


def amount(number, one, many):
    return "%d %s" % (number, one if number == 1 else many)


def answer_words(result):
    return "%s, %d dropped, %d kept, %d waiting" % (
        amount(result.visits, "visit", "visits"), result.dropped, result.kept_count,
        result.waiting_count)


def note_lines(result):
    """The note on a list that is not whole; nothing for a whole one."""
    if result.word == "finished":
        return []
    why = {"spent": "the budget of visits is spent",
           "full": "the list of kept boxes is full"}[result.word]
    waiting = amount(result.waiting_count, "box still waits", "boxes still wait")
    where = "drawn hatched" if result.waiting else "not drawn"
    return ["This list is not whole: %s." % why,
            "%s (%s). Zeros may lie there too." % (waiting, where)]


def outward(span):
    """A span of 1024ths in decimals, rounded outwards to four places."""
    low = span[0] * 10000 // FULL
    high = -(-span[1] * 10000 // FULL)
    return "%d.%04d to %d.%04d" % (low // 10000, low % 10000, high // 10000, high % 10000)
