"""Draws one signature as an SVG text: the coefficients of z over their index, below them the challenge on the same axis, and the challenge in words.

`signature_svg` is the one function to call. The text it gives is ASCII (other characters stand as character references), needs no script and no file
beside it, and is the same for the same arguments. Positions are pixels in a picture 800 wide, y downwards; its height follows from its lines of text.
"""
import unicodedata
from xml.sax.saxutils import escape, quoteattr

WIDTH = 800
MARGIN = 24            # free on all sides
PLOT_LEFT = 92         # leaves room for tick values and the turned labels
Z_HEIGHT = 290
CHALLENGE_HEIGHT = 96
ROOM = 26              # beyond the lowest and the highest coefficient, so that a dot and its value fit
FEW = 20               # up to so many coefficients, each has a stem and its value
FONTS = "Verdana, 'DejaVu Sans', sans-serif"  # the first two are about as wide as text_width reckons

# From the palettes of Okabe and Ito and of Tol, which colour-blind readers can tell apart; shapes and directions say the same as the colours.
TEXT, AXIS, GRID, LIMIT, BAND = "#222222", "#666666", "#d8d8d8", "#444444", "#eaf2f9"
INSIDE, OUTSIDE, PLUS, MINUS = "#0072b2", "#d55e00", "#117733", "#882255"


def signature_svg(title, subtitle, n, bound, challenge, z):
    """The picture of one signature, a whole SVG document.

    n: the number of coefficients. bound: k - b. challenge: pairs of an index and a sign, 1 or -1; what does not fit is told in words and not drawn.
    z: n numbers, in -bound..bound or not.
    """
    title, subtitle = printable(title), printable(subtitle)
    right = WIDTH - MARGIN - 8 - text_width(limit_label(-bound), 12)
    x_of = x_scale(n, right)
    body, y = paragraph(MARGIN - 6, title, 18, "bold")
    lines, y = paragraph(y + 3, subtitle, 14)
    body += lines + legend(y + 32, bound, z)
    top = y + 46
    body += z_panel(top, right, x_of, n, bound, z)
    top += Z_HEIGHT + 36
    body += challenge_panel(top, right, x_of, n, challenge)
    y = top + CHALLENGE_HEIGHT + 40
    body.append(text((PLOT_LEFT + right) / 2, y, "index i", anchor="middle"))
    y += 10
    below = [challenge_words(n, challenge)] + challenge_faults(n, challenge)
    for words in below:
        lines, y = paragraph(y + 6, words, 13)
        body += lines
    return document(y + MARGIN, [title, subtitle, range_words(bound, z)] + below, body)


def document(height, sentences, body):
    """The SVG around its elements; the sentences are what a screen reader says."""
    size = (WIDTH, height, WIDTH, height)
    lines = ['<?xml version="1.0" encoding="UTF-8"?>',
             '<svg xmlns="http://www.w3.org/2000/svg" width="%d" height="%d" viewBox="0 0 %d %d" role="img"' % size,
             ' aria-label=%s' % quoteattr(". ".join(sentence for sentence in sentences if sentence)),
             ' font-family="%s" fill="%s">' % (FONTS, TEXT),
             '<rect width="%d" height="%d" fill="#ffffff"/>' % (WIDTH, height)]
    return "\n".join(lines + body + ["</svg>", ""]).encode("ascii", "xmlcharrefreplace").decode("ascii")


# What the picture says in words

def range_words(bound, z):
    """How many coefficients are out of range, with the value of the first, which the eye may not tell from the bound."""
    outside = [i for i, value in enumerate(z) if abs(value) > bound]
    if not outside:
        return "all %d coefficients in range" % len(z)
    return "%d of %d outside the range, the first at index %d: %d" % (len(outside), len(z), outside[0], z[outside[0]])


def limit_label(limit):
    return ("k - b = %d" if limit >= 0 else "-(k - b) = %d") % limit


def entry_words(n, entry):
    """An entry with its sign, which index 0 has too; in brackets if it has no place on the axis."""
    index, sign = entry
    return ("%s%d" if 0 <= index < n else "[%s%d]") % ("+" if sign > 0 else "-", index)


def challenge_words(n, challenge):
    return "challenge: " + (" ".join(entry_words(n, entry) for entry in challenge) or "no entries")


def challenge_faults(n, challenge):
    """What is wrong with a damaged challenge, a sentence for each fault."""
    beyond = [entry for entry in challenge if not 0 <= entry[0] < n]
    behind = [(entry, before) for before, entry in zip(challenge, challenge[1:]) if entry[0] <= before[0]]
    faults = []
    if beyond:
        faults.append("index above %d, in brackets and not drawn: %d of %d entries" % (n - 1, len(beyond), len(challenge)))
    if behind:
        first = tuple(entry_words(n, entry) for entry in behind[0])
        faults.append("index not above the one before: %d of %d entries, the first is %s after %s" % ((len(behind), len(challenge)) + first))
    return faults


# The two panels

def legend(y, bound, z):
    """The shapes of the coefficients, with how many are out of range."""
    outside = sum(abs(value) > bound for value in z)
    words = range_words(bound, z)
    parts, x = [], PLOT_LEFT + 6
    if outside < len(z):
        word = "in range" if outside else words
        parts += ['<circle cx="%.2f" cy="%.2f" r="4" fill="%s"/>' % (x, y - 4.5, INSIDE), text(x + 11, y, word)]
        x += 11 + text_width(word, 13) + 24
    if outside:
        parts += ['<path d="%s" stroke="%s" stroke-width="2"/>' % (cross(x, y - 4.5), OUTSIDE), text(x + 11, y, words)]
    return parts


def z_panel(top, right, x_of, n, bound, z):
    """The coefficients over their index, with the range that they should keep to."""
    low, high = min([-bound, *z]), max([bound, *z])
    y_of = y_scale(top + ROOM, top + Z_HEIGHT - ROOM, low, high)
    band = (PLOT_LEFT, y_of(bound), right - PLOT_LEFT, y_of(-bound) - y_of(bound))
    parts = ['<rect x="%.2f" y="%.2f" width="%.2f" height="%.2f" fill="%s"/>' % (band + (BAND,))]
    ticks = [(y_of(value), "%d" % value) for value in round_ticks(low, high)]
    parts += panel(top, Z_HEIGHT, right, x_of, n, ticks, "coefficient of z")
    parts += [level(y_of(0), right, AXIS)] + [level(y_of(limit), right, LIMIT, ' stroke-dasharray="6 3"') for limit in (bound, -bound)]
    apart = max(0, 16 - band[3]) / 2  # the labels of a very thin band must not meet
    for limit, shift in ((bound, -apart), (-bound, apart)):
        parts.append(text(right + 8, y_of(limit) + shift + 4, limit_label(limit), size=12))
    return parts + (stems if n <= FEW else dots)(x_of, y_of, bound, z)


def dots(x_of, y_of, bound, z):
    """Many coefficients: a small dot each, and a cross with its value as a tooltip for each that is out of range."""
    radius = 2 if len(z) < 700 else 1.7
    inside = ['<circle cx="%.2f" cy="%.2f" r="%.1f"/>' % (x_of(i), y_of(value), radius) for i, value in enumerate(z) if abs(value) <= bound]
    outside = ['<path d="%s"><title>index %d: %d</title></path>' % (cross(x_of(i), y_of(value)), i, value)
               for i, value in enumerate(z) if abs(value) > bound]
    return group(inside, 'fill="%s"' % INSIDE) + group(outside, 'stroke="%s" stroke-width="2"' % OUTSIDE)


def stems(x_of, y_of, bound, z):
    """Few coefficients: a stem from zero, a dot or a cross, and the value beyond it."""
    parts = []
    for i, value in enumerate(z):
        x, y = x_of(i), y_of(value)
        colour = INSIDE if abs(value) <= bound else OUTSIDE
        parts.append('<path d="M%.2f %.2fV%.2f" stroke="%s" stroke-width="2"/>' % (x, y_of(0), y, colour))
        if colour == INSIDE:
            parts.append('<circle cx="%.2f" cy="%.2f" r="4.5" fill="%s"/>' % (x, y, colour))
        else:
            parts.append('<path d="%s" stroke="%s" stroke-width="2.5"/>' % (cross(x, y, 5), colour))
        parts.append(text(x, y - 10 if value >= 0 else y + 20, "%d" % value, anchor="middle"))
    return parts


def challenge_panel(top, right, x_of, n, challenge):
    """A stem for each entry that has a place on the axis: up to a triangle for +1, down to one for -1."""
    y_of = y_scale(top + 16, top + CHALLENGE_HEIGHT - 16, -1, 1)
    parts = panel(top, CHALLENGE_HEIGHT, right, x_of, n, [(y_of(1), "+1"), (y_of(0), "0"), (y_of(-1), "-1")], "challenge c")
    parts.append(level(y_of(0), right, AXIS))
    for sign, colour in ((1, PLUS), (-1, MINUS)):
        places = sorted({index for index, its_sign in challenge if its_sign == sign and 0 <= index < n})
        # The stem goes to the flat side of the triangle, whose tip is on the line of the value.
        rest = (y_of(0), y_of(sign) + 7 * sign, -7 * sign, 7 * sign)
        marks = ['<path d="M%.2f %.2fV%.2fh-4l4 %dl4 %dh-4"/>' % ((x_of(index),) + rest) for index in places]
        parts += group(marks, 'fill="%s" stroke="%s" stroke-width="1.5"' % (colour, colour))
    return parts


def panel(top, height, right, x_of, n, y_ticks, label):
    """The frame of a panel: grid lines with their values at the left and below, and the label, turned, at the far left."""
    bottom, middle = top + height, top + height / 2
    x_ticks = [(x_of(i), "%d" % i) for i in round_ticks(0, n - 1)]
    grid = ["M%.2f %.2fH%.2f" % (PLOT_LEFT, y, right) for y, _ in y_ticks]
    if n > FEW:  # few coefficients have stems, and a grid line would go through their values
        grid += ["M%.2f %.2fV%.2f" % (x, top, bottom) for x, _ in x_ticks]
    marks = ["M%.2f %.2fv5" % (x, bottom) for x, _ in x_ticks] + ["M%.2f %.2fh-5" % (PLOT_LEFT, y) for y, _ in y_ticks]
    frame = "M%.2f %.2fH%.2fV%.2fH%.2fZ" % (PLOT_LEFT, top, right, bottom, PLOT_LEFT)
    lines = [strokes("".join(grid), GRID), strokes(frame + "".join(marks), AXIS)]
    lines.append('<g transform="rotate(-90 %d %.2f)">%s</g>' % (MARGIN + 10, middle, text(MARGIN + 10, middle, label, anchor="middle")))
    lines += [text(PLOT_LEFT - 10, y + 4, word, size=12, anchor="end") for y, word in y_ticks]
    return lines + [text(x, bottom + 19, word, size=12, anchor="middle") for x, word in x_ticks]


# Scales and ticks

def x_scale(n, right):
    """Where an index is drawn: at least 8 pixels inside the frame, and with few indices half a step."""
    inset = max(8, (right - PLOT_LEFT) / (2 * n))
    step = (right - PLOT_LEFT - 2 * inset) / max(1, n - 1)
    return lambda index: PLOT_LEFT + inset + step * index


def y_scale(top, bottom, low, high):
    """Where a value is drawn: high at the top, low at the bottom."""
    return lambda value: bottom - (bottom - top) * (value - low) / max(1, high - low)


def round_ticks(low, high):
    """The multiples in low..high of the smallest of 1, 2, 5, 10, 20, 50, ... that parts it into at most 12."""
    steps = (digit * 10 ** power for power in range(6) for digit in (1, 2, 5))
    step = next(step for step in steps if high - low <= 12 * step)
    return [step * i for i in range(-(-low // step), high // step + 1)]


# Elements

def text(x, y, words, size=13, anchor=None, weight=None):
    more = "".join(' %s="%s"' % pair for pair in (("text-anchor", anchor), ("font-weight", weight)) if pair[1])
    return '<text x="%.2f" y="%.2f" font-size="%d"%s>%s</text>' % (x, y, size, more, escape(words))


def strokes(path, colour, more=""):
    """Straight lines, along the pixels so that they look sharp."""
    return '<path d="%s" fill="none" stroke="%s" shape-rendering="crispEdges"%s/>' % (path, colour, more)


def level(y, right, colour, more=""):
    """A line over the whole width of a panel."""
    return strokes("M%.2f %.2fH%.2f" % (PLOT_LEFT, y, right), colour, more)


def cross(x, y, arm=4):
    return "M%.2f %.2fl%d %dm0 %dl%d %d" % (x - arm, y - arm, 2 * arm, 2 * arm, -2 * arm, -2 * arm, 2 * arm)


def group(elements, attributes):
    return ["<g %s>" % attributes] + elements + ["</g>"] if elements else []


# Text that fits

def printable(words):
    """The words with single spaces, and a replacement character for what XML cannot hold, as a file's name may: controls and lone surrogates."""
    return "".join("\ufffd" if unicodedata.category(c) in ("Cc", "Cs") or c in "\ufffe\uffff" else c for c in " ".join(words.split()))


def text_width(words, size, weight=None):
    """About the width of a text in whole pixels, rather too much than too little, as there is no font to ask."""
    return sum(character_width(c) for c in words) * size * (112 if weight else 100) // 10000 + 1


def character_width(c):
    """In hundredths of the font's size."""
    if c in "iljftr.,:;'!|()[]/\\- ":
        return 39
    if c in "mwMW@%" or unicodedata.east_asian_width(c) in "WF":
        return 100
    return 64 if c.islower() or c.isdigit() else 84


def paragraph(y, words, size, weight=None):
    """The words in as many lines as they need under y, between the margins, and the y of the last one."""
    def lines_within(width):
        return wrapped(words.split(), lambda part: text_width(part, size, weight) <= width)

    width, pitch = WIDTH - 2 * MARGIN, size + 6
    lines = lines_within(width)
    # A few lines are made about equally long, rather than with a single number on the last one; no word is cut for that.
    longest = max((text_width(word, size, weight) for word in words.split()), default=0)
    while 1 < len(lines) < 6 and longest <= width - 8 and len(lines_within(width - 8)) == len(lines):
        width -= 8
        lines = lines_within(width)
    return [text(MARGIN, y + pitch * (i + 1), line, size=size, weight=weight) for i, line in enumerate(lines)], y + pitch * len(lines)


def wrapped(words, fits):
    """Lines that fit, filled word by word; a word that is too long for a line, as a path may be, is cut."""
    lines = [""]
    for word in words:
        joined = lines[-1] + " " + word if lines[-1] else word
        if fits(joined):
            lines[-1] = joined
            continue
        lines += [""] if lines[-1] else []
        for c in word:
            if not fits(lines[-1] + c):
                lines.append("")
            lines[-1] += c
    return [line for line in lines if line]
