"""The kit's library: as a shared object, called with guarded buffers, and calls as the test programs in C read them."""

import ctypes
from array import array

GUARD = bytes(range(0xA0, 0xE0))  # 64 bytes: keeps what follows aligned for every element

NUMBERS = ("set", "rule")  # arguments of one byte
ENTRIES = ("check", "sign", "public_key", "evaluate", "evaluate_all", "draw", "read_secret_key", "write_secret_key",
           "read_public_key", "write_public_key", "read_signature", "write_signature")  # in the header's order

# The element type (of module array) of each lent slice by its name, and of `out` by its entry.
ELEMENTS = {"coefficients": "h", "points": "H", "pool": "B", "secret_key": "B", "masks": "h",
            "message": "B", "public_key": "B", "signature": "B", "key": "b", "evaluations": "I",
            "entries": "H", "z": "h"}
OUT_ELEMENTS = {"evaluate": "i", "evaluate_all": "i", "draw": "b", "public_key": "B", "sign": "B", "read_secret_key": "b",
                "write_secret_key": "B", "write_public_key": "B", "write_signature": "B"}


def element(entry, argument):
    return OUT_ELEMENTS[entry] if argument == "out" else ELEMENTS[argument]


def as_bytes(entry, argument, values):
    return array(element(entry, argument), values).tobytes()


def from_bytes(entry, argument, content):
    return array(element(entry, argument), content).tolist()


class Guarded:
    """A slice to lend, with guard bytes on both sides."""

    def __init__(self, content):
        whole = GUARD + content + GUARD
        self.memory = (ctypes.c_uint64 * (len(whole) // 8 + 1))()
        self.size = len(whole)
        ctypes.memmove(self.memory, whole, self.size)
        self.address = ctypes.addressof(self.memory) + len(GUARD)

    def now(self):
        return ctypes.string_at(self.memory, self.size)


def fed(function, number, slices):
    """A call as tests/calls.h reads it, of slices as arrays."""
    head = bytes((function, number, len(slices)))
    return head + b"".join(len(each).to_bytes(4, "little") + bytes((each.itemsize,)) + each.tobytes() for each in slices)


def as_fed(entry, arguments):
    """The same, of an entry's arguments."""
    number = next((values for name, values in arguments.items() if name in NUMBERS), 0)
    slices = [array(element(entry, name), values) for name, values in arguments.items() if name not in NUMBERS]
    return fed(ENTRIES.index(entry), number, slices)


def load(path):
    """A function (entry, arguments) -> (answer, the guarded bytes of each lent slice after it). Slices named in `null` are empty and lent as null pointers."""
    library = ctypes.CDLL(str(path))

    def call(entry, arguments, null=()):
        function = getattr(library, f"passign_{entry}")
        function.restype = ctypes.c_uint32
        passed, lent = [], {}
        for argument, values in arguments.items():
            if argument in NUMBERS:
                passed.append(ctypes.c_uint8(values))
                continue
            lent[argument] = Guarded(as_bytes(entry, argument, values))
            address = None if argument in null else lent[argument].address
            passed += [ctypes.c_void_p(address), ctypes.c_size_t(len(values))]
        answer = function(*passed)
        return answer, {argument: memory.now() for argument, memory in lent.items()}

    return call
