"""The refusal numbers: what is wrong, and what to do about it. README's table has these rows, and passign_refusal_text of include/passign.h these words for
the numbers of the library; tests/tables.py holds them together."""

from typing import NamedTuple


class Refusal(NamedTuple):
    number: int
    wrong: str
    remedy: str
    ends: bool = False  # the session; after the others it goes on
    by: str = "session library"  # which of the two can give it
    for_c: tuple = ()  # what is wrong and what to do in the library, where that is said otherwise

    @property
    def text_for_c(self):
        """What passign_refusal_text gives."""
        return ": ".join(self.for_c or (self.wrong, self.remedy))

    @property
    def readme_row(self):
        wrong, remedy = self.wrong, self.remedy
        if self.for_c:
            wrong, remedy = f"{wrong}; in the library, {self.for_c[0]}", "; ".join(dict.fromkeys((remedy, self.for_c[1])))
        return f"| {self.number} | {wrong}{' (library only)' if self.by == 'library' else ''} | {remedy} |"


REFUSALS = {refusal.number: refusal for refusal in (
    Refusal(1, "the file has more than 65,536 bytes", "split the session", ends=True,
            for_c=("a list, pool or buffer does not have the length that passign.h lists, an encoding is empty, or a message has more than 65,535 bytes",
                   "lend slices of the lengths of the set")),
    Refusal(2, "the set is not 0 to 4, or the sets of two encodings differ",
            "choose a set of the table, and check a signature with a public key of its own set"),
    Refusal(3, "02 to 08 or 0A before an accepted 01, `set`", "choose a set first", ends=True, by="session"),
    Refusal(4, "the exponents are out of 1..N-1, or not strictly increasing", "sort the points, each once"),
    Refusal(5, "a key value is not -1, 0 or 1", "use these alone; in bytes -1 is FF, 0 is 00 and 1 is 01"),
    Refusal(6, "a mask coefficient is outside -k..k", "draw the mask within k"),
    Refusal(7, "a public evaluation is not below q", "reduce it to 0..q-1: add q to a negative one"),
    Refusal(8, "eight masks are held", "sign with 06, `sign`, before the next 04, `mask`", by="session"),
    Refusal(9, "no mask is held, or none passes, and all are dropped", "give new masks: one in two to eight passes, by the set",
            for_c=("no mask is given, or none passes", "give new masks: one in two to eight passes, by the set")),
    Refusal(10, "something that the command needs is not held", "load it first; 01 forgets all, 02 the key and the evaluations, 08 the key", by="session"),
    Refusal(11, "the pool is spent before b indices are kept", "draw with a longer pool", by="library"),
    Refusal(12, "a challenge index is not below N, or not increasing", "the signature is damaged or not one of this set"),
    Refusal(13, "the file ends before 00, `end`, or inside an operand", "end the file with 00; count the operand's bytes for the set in force",
            ends=True, by="session"),
    Refusal(14, "an unknown command", "the command before it had a wrong number of operand bytes, or the byte is wrong", ends=True, by="session"),
    Refusal(15, "the file does not open with the tag, `50 53 47 31`", "put the tag first", ends=True, by="session"),
    Refusal(16, "bytes after 00, `end`", "remove them", ends=True, by="session"),
    Refusal(17, "06, `sign`, with a key that has no signature left; masks are kept", "grant more with 0A, `life`, or load a key with 03", by="session"),
    Refusal(18, "the rule is not 1 or 2", "give 1 for the low byte of each evaluation, or 2 for all three bytes"),
)}
