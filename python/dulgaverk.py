"""The verified operations of Dulgaverk for Python, over libdulgaverk.so.

    import dulgaverk
    guard = dulgaverk.check(a, b, proof)        # bytes, or a Refusal is raised
    dulgaverk.test(guard, [1, 4, -7])           # True or False

Files are bytes, and nothing has to be tested before a call: what is wrong is a Refusal, and a number that the library's
types do not hold is an OverflowError. The library is looked for in the folder above this file's, where ./install puts it,
or where the variable DULGAVERK_LIBRARY says. docs/FORMAT.md describes the files and the order of tests.
"""

import ctypes
import os
from collections import namedtuple

INEQUALITY, EQUALITY, DISEQUALITY = 0, 1, 2
CONSTRAINTS, NUMBERS, WRITTEN_BUNDLE, PROOF, FORMULA = 32, 544, 2_280, 65_536, 65_536
VALUE, TEXT, SHORT_PROOF, ROWS, STAGES = 1_000_000, 393_216, 32, 1_024, 16
NONE = 65_535

Bundle = namedtuple("Bundle", "edition constants kinds numbers")
Shortened = namedtuple("Shortened", "report table")

MEANINGS = {
    1: "a file is longer than its limit, or a formula or a turned proof would be",
    2: "bytes are no whole field, or a file ends too early",
    3: "a tag below 0x80 that this kind of file does not have",
    4: "a known tag where it may not stand",
    5: "an edition that this kind of file does not have, or that a file to be turned has already",
    6: "a field of the wrong length",
    7: "the number of constants, or of values, is not 1 to 16, or a list is not whole vectors",
    8: "more than 32 constraints, or for short proofs more than 4 in both bundles",
    9: "the number of constants is not the one given before",
    10: "a line that is not there, or a line number that has no room in the edition asked for",
    11: "a line of the wrong kind",
    12: "a multiplier of 0, a stride below 2, or a rounding by 0 or more than 16",
    13: "a number of a new line, or of a bundle, is out of range",
    14: "a claim that is not the new line",
    15: "a close or rounding whose condition is not met",
    16: "a 129th line on a branch, or in edition 2 a 1,001st",
    17: "a 33rd open step, or in a formula a 601st level of and/or",
    18: "a 1,025th row",
    19: "a known field after the end of the proof or formula",
    20: "branches are still open at the end of the proof",
    21: "a lent output is too short",
    22: "no longer given; its number is not used again",
    23: "a register value outside -1,000,000 to 1,000,000",
    24: "a kind that is not 0, 1 or 2, or the wrong count of numbers",
    25: "not 1 to 16 stages, or lengths that do not add up to the buffer",
    26: "more than 64 constraints in a run",
    27: "a claim in the proof of a run",
    28: "branches that a run needs alike are not",
    29: "a seat above 7",
    30: "a job for a seat where one waits",
    31: "no job waits at the seat",
    32: "a table that is not among the short proofs",
    33: "no short proof follows the table",
    34: "a part of a job does not lie in the buffer",
    35: "no job waits",
}


def _file_name(file):
    if 11 <= file <= 26:
        return f"stage {file - 10} of a run"
    names = {1: "A, or a bundle read or turned alone", 2: "B", 3: "the proof or formula"}
    return names.get(file, "a lent output, or no file")


class Refusal(Exception):
    """Why a call was refused: number, file and place; of a proof also row, step and branch, None where there is none."""

    def __init__(self, number, file, place, row=None, step=None, branch=None):
        self.number, self.file, self.place = number, file, place
        self.row, self.step, self.branch = row, step, branch
        words = f"refused {number} file {file} at {place}: {MEANINGS.get(number, 'no refusal')} ({_file_name(file)})"
        if row is not None:
            words += f", row {row}"
        if step is not None:
            words += f", in branch {branch} of the step in row {step}"
        super().__init__(words)

    def __reduce__(self):
        return Refusal, (self.number, self.file, self.place, self.row, self.step, self.branch)


class _Answer(ctypes.Structure):
    _fields_ = [
        ("number", ctypes.c_uint8),
        ("file", ctypes.c_uint8),
        ("place", ctypes.c_size_t),
        ("row", ctypes.c_uint16),
        ("step", ctypes.c_uint16),
        ("branch", ctypes.c_uint16),
    ]


class _Read(ctypes.Structure):
    _fields_ = [("answer", _Answer), ("count", ctypes.c_size_t), ("k", ctypes.c_uint8), ("edition", ctypes.c_uint8)]


class _Written(ctypes.Structure):
    _fields_ = [("answer", _Answer), ("count", ctypes.c_size_t)]


class _Shortened(ctypes.Structure):
    _fields_ = [("answer", _Answer), ("rows", ctypes.c_size_t), ("count", ctypes.c_size_t)]


class _Tested(ctypes.Structure):
    _fields_ = [("answer", _Answer), ("holds", ctypes.c_bool)]


def _library():
    beside = os.path.join(os.path.dirname(os.path.abspath(__file__)), "..", "libdulgaverk.so")
    library = ctypes.CDLL(os.environ.get("DULGAVERK_LIBRARY", beside))
    size = ctypes.c_size_t
    # Each is a pointer and a length.
    file, lent = [ctypes.c_char_p, size], [ctypes.POINTER(ctypes.c_uint8), size]
    numbers, sizes = [ctypes.POINTER(ctypes.c_int32), size], [ctypes.POINTER(size), size]
    for name, result, arguments in [
        ("read", _Read, file + lent + numbers),
        ("write", _Written, [size, size] + lent + numbers + lent),
        ("check", _Written, file * 3 + lent),
        ("shorten", _Shortened, file * 3 + lent * 2),
        ("guards", _Written, file + sizes + file + lent + sizes),
        ("test", _Tested, file + numbers),
        ("test_list", _Written, file + [size] + numbers + lent),
        ("turn_bundle", _Written, file + [size] + lent),
        ("turn_proof", _Written, file + [size] + lent),
        ("print", _Written, file + lent),
        ("print_words", _Written, file + lent),
        ("next_proof", _Written, file * 3 + lent),
    ]:
        function = getattr(library, f"dulgaverk_{name}")
        function.restype, function.argtypes = result, arguments
    return library


_lib = _library()


def _accepted(answer):
    if answer.number:
        tree = [None if n == NONE else n for n in (answer.row, answer.step, answer.branch)]
        raise Refusal(answer.number, answer.file, answer.place, *tree)


def _array(number, values, least, above):
    """A list of numbers of C, and its length. ctypes would cut a number that does not fit, so that is an error."""
    values = list(values)
    for value in values:
        if not least <= value < above:
            raise OverflowError(f"{value} is not {least} to {above - 1}")
    return (number * len(values))(*values), len(values)


def _longs(values):
    return _array(ctypes.c_int32, values, -(2**31), 2**31)


def _sizes(values):
    return _array(ctypes.c_size_t, values, 0, 2 ** (8 * ctypes.sizeof(ctypes.c_size_t)))


def _size(value):
    return _sizes([value])[0][0]


def _files(*files):
    """Each file and its length. Anything but bytes is an error: bytes(3) would be three zeros."""
    given = []
    for file in files:
        file = bytes(memoryview(file))
        given += [file, len(file)]
    return given


def _out(size):
    return (ctypes.c_uint8 * size)(), size


def _written(function, arguments, size):
    """Calls what writes one output, and gives what was written."""
    out, size = _out(size)
    written = function(*arguments, out, size)
    _accepted(written.answer)
    return bytes(memoryview(out)[: written.count])


def read(file):
    """A bundle's edition, number of constants, kinds, and for each constraint its coefficients and d."""
    kinds, numbers = _out(CONSTRAINTS), ((ctypes.c_int32 * NUMBERS)(), NUMBERS)
    found = _lib.dulgaverk_read(*_files(file), *kinds, *numbers)
    _accepted(found.answer)
    return Bundle(found.edition, found.k, kinds[0][: found.count], numbers[0][: found.count * (found.k + 1)])


def write(edition, constants, kinds, numbers):
    """The bytes of a bundle, from what read gives: write(*read(file)) is the file without its notes."""
    kinds = _array(ctypes.c_uint8, kinds, 0, 256)
    arguments = [_size(edition), _size(constants), *kinds, *_longs(numbers)]
    return _written(_lib.dulgaverk_write, arguments, WRITTEN_BUNDLE)


def check(a, b, proof):
    """The file of the interpolant that the proof gives."""
    return _written(_lib.dulgaverk_check, _files(a, b, proof), FORMULA)


def shorten(a, b, proof):
    """For each row of a proof 1 needed, 0 not, 2 a close or branching row; and the proof without those of 0."""
    report, table = _out(ROWS), _out(PROOF)
    found = _lib.dulgaverk_shorten(*_files(a, b, proof), *report, *table)
    _accepted(found.answer)
    return Shortened(report[0][: found.rows], bytes(memoryview(table[0])[: found.count]))


def guards(stages, proof):
    """The n + 1 guards of a run of n stages, a list of files."""
    stages = [bytes(memoryview(stage)) for stage in stages]
    lengths, sizes = _sizes(map(len, stages)), ((ctypes.c_size_t * (STAGES + 1))(), STAGES + 1)
    out = _out((STAGES + 1) * FORMULA)
    found = _lib.dulgaverk_guards(*_files(b"".join(stages)), *lengths, *_files(proof), *out, *sizes)
    _accepted(found.answer)
    files, start = [], 0
    for size in sizes[0][: len(stages) + 1]:
        files.append(bytes(memoryview(out[0])[start : start + size]))
        start += size
    return files


def test(formula, values):
    """Whether a formula holds at these register values, one for each constant."""
    found = _lib.dulgaverk_test(*_files(formula), *_longs(values))
    _accepted(found.answer)
    return found.holds


def test_list(formula, constants, values):
    """Whether a formula holds at each vector of a list: so many values each, one vector after the other."""
    numbers, count = _longs(values)
    arguments = [*_files(formula), _size(constants), numbers, count]
    return [byte == 1 for byte in _written(_lib.dulgaverk_test_list, arguments, count)]


def turn_bundle(file, edition):
    """A bundle in the other edition, the one asked for."""
    return _written(_lib.dulgaverk_turn_bundle, [*_files(file), _size(edition)], WRITTEN_BUNDLE)


def turn_proof(file, edition):
    """A proof in the other edition, the one asked for."""
    return _written(_lib.dulgaverk_turn_proof, [*_files(file), _size(edition)], PROOF)


def print(formula):
    """A formula as a term of SMT-LIB 2, over r0, r1, .."""
    return _written(_lib.dulgaverk_print, _files(formula), TEXT).decode("ascii")


def print_words(formula):
    """A formula in words, over r0, r1, .."""
    return _written(_lib.dulgaverk_print_words, _files(formula), TEXT).decode("ascii")


def next_proof(a, b, table):
    """The short proof after a table, or after the header alone the first."""
    return _written(_lib.dulgaverk_next_proof, _files(a, b, table), SHORT_PROOF)
