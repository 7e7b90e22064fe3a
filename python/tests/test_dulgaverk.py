"""The module against the examples: python3 test_dulgaverk.py EXAMPLES, with the module on the path."""

import os
import pickle
import sys

import dulgaverk
from dulgaverk import Refusal

EXAMPLES = sys.argv[1]


def file(*path):
    with open(os.path.join(EXAMPLES, *path), "rb") as opened:
        return opened.read()


def refused(expected, call, *arguments):
    """The refusal, which has number, file, place, row, step and branch as expected."""
    try:
        call(*arguments)
    except Refusal as refusal:
        found = (refusal.number, refusal.file, refusal.place, refusal.row, refusal.step, refusal.branch)
        assert found == tuple(expected) + (None,) * (6 - len(expected)), found
        return str(refusal)
    raise AssertionError(f"accepted, not {expected}")


def fails(error, call, *arguments):
    try:
        call(*arguments)
    except error:
        return
    raise AssertionError(f"no {error}")


def stages():
    """Every example with a proof gives what its file expected has."""
    count = 0
    for name in sorted(os.listdir(EXAMPLES)):
        if not os.path.isfile(os.path.join(EXAMPLES, name, "p")):
            continue
        a, b, proof = (file(name, part) for part in "abp")
        expected = file(name, "expected").decode()
        try:
            guard = dulgaverk.check(a, b, proof)
            found = f"accepted {len(guard)}\n{guard.hex().upper()}\n"
            shortened = dulgaverk.shorten(a, b, proof)
            assert dulgaverk.check(a, b, shortened.table) == guard, name
            assert len(shortened.table) <= len(proof), name
        except Refusal as refusal:
            found = str(refusal).split(":")[0] + "\n"
        assert found == expected, (name, found)
        count += 1
    return count


def bundles():
    a = file("stage-1", "a")
    bundle = dulgaverk.read(a)
    assert bundle == (1, 3, [dulgaverk.EQUALITY], [-2, 1, 0, 0]), bundle
    assert dulgaverk.write(*bundle) == a
    up = dulgaverk.turn_bundle(a, 2)
    assert dulgaverk.read(up) == bundle._replace(edition=2)
    assert dulgaverk.turn_bundle(up, 1) == a
    refused((5, 1, 0), dulgaverk.turn_bundle, a, 1)
    refused((2, 1, 0), dulgaverk.read, b"")
    refused((5, 4, 0), dulgaverk.write, 257, 1, [], [])
    refused((7, 4, 0), dulgaverk.write, 1, 272, [], [])
    refused((24, 4, 0), dulgaverk.write, 1, 1, [3], [0, 0])
    for wrong in [(-1, 1, [], []), (1, 2**64, [], []), (1, 1, [256], [0, 0]), (1, 1, [0], [0, 2**32])]:
        fails(OverflowError, dulgaverk.write, *wrong)
    fails(TypeError, dulgaverk.read, 3)
    fails(TypeError, dulgaverk.read, "text")


def proofs():
    a, b, proof = (file("stage-5-unused", part) for part in "abp")
    shortened = dulgaverk.shorten(a, b, proof)
    assert shortened.report == [0, 0, 1, 2, 1, 2, 2, 0, 1, 2], shortened.report
    assert shortened.table == file("stage-5-shortened", "p")
    assert dulgaverk.turn_proof(dulgaverk.turn_proof(shortened.table, 2), 1) == shortened.table
    a, b = file("short-1", "a"), file("short-1", "b")
    table, count = bytes([1, 0, 1, 1, 2, 0, 1, 3]), 0
    while True:
        try:
            table = dulgaverk.next_proof(a, b, table)
            count += 1
        except Refusal as refusal:
            assert refusal.number == 33
            break
    assert count == 344, count
    # 2x - 1 <= 0: strengthen line 0, then close line 0, which has a coefficient.
    a = bytes([1, 0, 1, 1, 2, 0, 1, 1, 3, 0, 4, 0, 2, 255, 255])
    proof = bytes([1, 0, 1, 1, 2, 0, 1, 1, 0x13, 0, 1, 0, 0x14, 0, 1, 0])
    words = refused((15, 3, 12, 1, 0, 0), dulgaverk.check, a, a[:8], proof)
    assert words == (
        "refused 15 file 3 at 12: a close or rounding whose condition is not met (the proof or formula), "
        "row 1, in branch 0 of the step in row 0"
    ), words
    again = pickle.loads(pickle.dumps(Refusal(15, 3, 12, 1, 0, 0)))
    assert str(again) == words


def runs():
    stages, proof = [file("run-1", name) for name in ["t1", "t2", "t3"]], file("run-1", "proof")
    guards = dulgaverk.guards(stages, proof)
    words = [dulgaverk.print_words(guard) for guard in guards]
    assert words == ["0 <= 0", "1*r0 - 2 <= 0", "1*r1 - 5 <= 0", "4 <= 0"], words
    refused((25, 4, 0), dulgaverk.guards, [], proof)
    words = refused((2, 12, 0), dulgaverk.guards, [stages[0], b""], proof)
    assert words.endswith("(stage 2 of a run)"), words


def formulas():
    guard = file("guard-1", "f")
    assert dulgaverk.test(guard, [1, 4, -7]) is True
    assert dulgaverk.test(guard, [1, 3, -7]) is False
    assert dulgaverk.test_list(guard, 3, [1, 4, -7, 1, -3, 0]) == [True, False]
    refused((23, 4, 2), dulgaverk.test, guard, [1, 4, dulgaverk.VALUE + 1])
    refused((7, 4, 0), dulgaverk.test_list, guard, 3, [1])
    fails(OverflowError, dulgaverk.test, guard, [1, 4, 2**32])
    assert dulgaverk.print(guard) == "(= (mod (+ (* 1 r1) 0) 2) 0)"
    assert dulgaverk.print_words(guard) == "2 divides 1*r1"
    refused((2, 3, 8), dulgaverk.print_words, guard[:8])


bundles()
proofs()
runs()
formulas()
print(f"{stages()} stages as expected")
