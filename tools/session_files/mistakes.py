"""A mistake that its maker can mend."""


class Mistake(Exception):
    """What was found, and what is expected in its place."""


def expect(holds, found, expected):
    if not holds:
        raise Mistake(f"found {found}: expected {expected}")


def short(text, most=40):
    """A text to quote, cut where it is long."""
    return repr(text) if len(text) <= most else repr(text[:most]) + "…"
