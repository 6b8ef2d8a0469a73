"""Request #105 as a reader finds it: the account of each key of a session, from the commands in its file and the numbers in their rows alone.

While a key is held, the signatures given since its loading and those left are the number last granted and those given before that grant. So rows tell
what is left, and with it which 06 must be refused with 17.
"""

from commands_played import commands

NOT_HELD, NO_MASK_PASSES, NONE_LEFT = 10, 9, 17
SITUATIONS = {"17 with a mask held", "17 without a mask", "10 where none is left", "9 with one left", "signed with one left", "signed with more left",
              "granted 0", "granted 1", "granted 65535", "granted to a spent key", "granted to no key", "03 loads anew", "03 refused for a spent key",
              "01 forgets a grant", "02 forgets a grant", "08 forgets a grant"}


class Loading:
    """What was given and granted since a key was loaded."""
    def __init__(self):
        self.given, self.granted, self.before, self.grants = 0, 65535, 0, 0

    @property
    def left(self):
        return self.granted + self.before - self.given


class Reader:
    def __init__(self):
        self.loading = None
        self.message, self.masks = False, 0
        self.seen = set()

    def saw(self, situation, holds=True):
        if holds:
            self.seen.add(situation)

    def six(self, number, passed_over):
        """What a 06 must be refused with, 17 or 10, or None where it may sign."""
        key = self.loading
        if key is None or not self.message:
            self.saw("10 where none is left", key is not None and key.left == 0)
            return NOT_HELD
        if key.left == 0:
            self.saw("17 with a mask held" if self.masks else "17 without a mask")
            return NONE_LEFT
        if number == 0:
            self.saw("signed with one left" if key.left == 1 else "signed with more left")
            key.given += 1
            self.masks -= passed_over + 1
        elif number == NO_MASK_PASSES:
            self.saw("9 with one left", key.left == 1)
            self.masks = 0
        return None

    def granted(self, number, operand):
        if number:
            self.saw("granted to no key")
            return
        key, value = self.loading, int.from_bytes(operand, "big")
        self.saw(f"granted {value}", value in (0, 1, 65535))
        self.saw("granted to a spent key", key.left == 0)
        key.granted, key.before, key.grants = value, key.given, key.grants + 1

    def loads_or_forgets(self, command, number):
        """01, 02, 03, 04, 05 and 08."""
        key = self.loading
        if number:
            self.saw("03 refused for a spent key", command == 0x03 and key is not None and key.left == 0)
        elif command == 0x03:
            self.saw("03 loads anew", key is not None and key.left == 0)
            self.loading = Loading()
        elif command == 0x04:
            self.masks += 1
        elif command == 0x05:
            self.message = True
        else:
            self.saw(f"{command:02X} forgets a grant", key is not None and key.grants > 0)
            self.loading = None
            if command == 0x01:
                self.message, self.masks = False, 0


def read(file, rows):
    """The situations met, and the first row that the account does not allow, or None."""
    reader = Reader()
    for row, command, operand, number, fields in commands(file, rows):
        if command == 0x06:
            due = reader.six(number, int(fields[0]) if number == 0 else 0)
            if number != due if due else number not in (0, NO_MASK_PASSES):
                return reader.seen, f"row '{row[:40]}': the account has {due or 'no refusal but 9'}"
        elif command == 0x0A:
            reader.granted(number, operand)
        elif command not in (0x07, 0x0B):
            reader.loads_or_forgets(command, number)
    return reader.seen, None
