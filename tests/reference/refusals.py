"""Document 01, "Refusals, by who can cause them", and document 02."""

# Caller of the library
LENGTH = 1
SET = 2
POOL_SPENT = 11

# Caller of the library, or author of the session
RULE = 18

# Author of the session
NO_SET_YET = 3
EIGHT_MASKS_HELD = 8
NOT_HELD = 10
FILE_ENDS = 13
UNKNOWN_COMMAND = 14
TAG = 15
BYTES_AFTER_END = 16
NONE_LEFT = 17

# Owner of key and masks
EXPONENTS = 4
KEY_VALUE = 5
MASK_COEFFICIENT = 6
NO_MASK_PASSES = 9

# Giver of a public key or signature
EVALUATION = 7
CHALLENGE_INDEX = 12

END_THE_SESSION = {LENGTH, NO_SET_YET, FILE_ENDS, UNKNOWN_COMMAND, TAG, BYTES_AFTER_END}


class Refused(Exception):
    def __init__(self, number):
        super().__init__(number)
        self.number = number


def refuse_unless(holds, number):
    if not holds:
        raise Refused(number)
