#!/usr/bin/env python3
"""Writes the sheets of document 01's known paths, one that is answered 9, one that is answered 11, those of request Four's limits, those that tell the readings of the counters apart and the longest sheet with the answers expected, and the sheets of a test program.

    examples/make_sheets.py     writes examples/*.sheet, examples/*.answer, and the data and the lines expected of crates/sheet_check

All of these are stored in the repository; this says what is in them. It packs bits by itself and uses no other code of the project.
"""
import pathlib

ROOT = pathlib.Path(__file__).resolve().parent.parent

# Document 02, request Four: the most certificates, and the most of a list.
CERTIFICATES, LISTED, LONGEST = 15, 31, 2929

# "1 to 7 are refusals", and 11 of request Six.
REFUSALS = {1, 2, 3, 4, 5, 6, 7, 11}


def certificate(policies=(), pairs=(), self_issued=False, skips=(None, None, None)):
    """The fields of a certificate, as (width, value) pairs."""
    fields = [(1, int(self_issued)), (1, int(bool(policies)))]
    if policies:
        fields += [(5, len(policies))] + [(16, p) for p in policies]
    fields += [(1, int(bool(pairs)))]
    if pairs:
        fields += [(5, len(pairs))] + [(16, p) for pair in pairs for p in pair]
    for skip in skips:
        fields += [(1, 0)] if skip is None else [(1, 1), (8, skip)]
    return fields


def sheet(certificates, users=(1,), mapping=False, explicit=False, anypolicy=False, n=None):
    """The fields of a sheet."""
    fields = [(4, 1), (4, len(certificates) if n is None else n), (1, int(mapping)), (1, int(explicit)), (1, int(anypolicy))]
    fields += [(5, len(users))] + [(16, u) for u in users]
    return fields + [field for c in certificates for field in c]


def packed(fields):
    """The fields as bytes, with zero bits to the end of the last."""
    bits = "".join(format(value, f"0{width}b") for width, value in fields)
    bits += "0" * (-len(bits) % 8)
    return bytes(int(bits[k:k + 8], 2) for k in range(0, len(bits), 8))


def straight(count):
    """A certificate with so many policies from 100 upward, each mapped to itself."""
    policies = range(100, 100 + count)
    return certificate(policies, [(policy, policy) for policy in policies])


FOUR = [(21, 21), (21, 22), (22, 21), (22, 22)]
H = [certificate([1], [(50, 51)]), certificate([51])]

KNOWN = {
    "A": sheet([certificate([11, 12, 15], [(11, 13), (11, 14)]), certificate([12, 13, 16])]),
    "B": sheet([certificate([21, 22], FOUR), certificate([21, 22], FOUR), certificate([21, 22])]),
    "B10": sheet([certificate([21, 22], FOUR)] * 9 + [certificate([21, 22])]),
    "B15": sheet([certificate([21, 22], FOUR)] * 14 + [certificate([21, 22])]),
    "C": sheet([certificate()]),
    "D": sheet([certificate()], explicit=True),
    "E": sheet([certificate([1])], users=(30, 31)),
    "F": sheet([certificate([1])], users=(30, 31), anypolicy=True),
    "G-self-issued": sheet([certificate([1], self_issued=True), certificate([40])], anypolicy=True),
    "G": sheet([certificate([1]), certificate([40])], anypolicy=True),
    "H-50": sheet(H, users=(50,), explicit=True),
    "H-51": sheet(H, users=(51,), explicit=True),
    "I-50": sheet(H, users=(50,), explicit=True, mapping=True),
    "I-51": sheet(H, users=(51,), explicit=True, mapping=True),
    "J": sheet([certificate([60], [(60, 61)]), certificate([60, 61])], explicit=True, mapping=True),
    "K": sheet([certificate([70], [(1, 71)])]),
    "K-before-last": sheet([certificate([70], [(1, 71)]), certificate([70])]),
    "L-0": sheet([certificate(skips=(0, None, None))]),
    "L-1": sheet([certificate(skips=(1, None, None))]),
    "M": sheet([certificate([80], skips=(1, None, None)), certificate()]),
    "repeated-pair": sheet([certificate([70], [(1, 71), (70, 71), (1, 71)]), certificate([70, 71])]),
    "pairs-apart": sheet([certificate([5, 8], [(5, 6), (5, 7), (8, 6), (6, 5)]), certificate([6])]),
    "eleven-certificates": sheet([certificate([5])] * 11),
    "seventeen-listed": sheet([straight(17)] * 2, users=range(100, 117)),
    "counters-8": sheet([certificate([80], skips=(None, 2, None)), certificate(skips=(0, 0, 1)), certificate([80])], explicit=True),
    "counters-9": sheet([certificate([70], skips=(None, 2, 1)), certificate([70], [(1, 71)], skips=(0, 0, 0)), certificate([70])]),
    "counters-end": sheet([certificate([22], skips=(0, 0, 0))]),
    "counters-self-issued": sheet([certificate([22], self_issued=True, skips=(None, None, 2)), certificate([22], self_issued=True)]),
    "counters-255": sheet([certificate([22], skips=(255, 255, 255))] * 2),
}


# What document 01 says of each, of K document 02's request Three, and of the pairs request Six; two are within request Four's limits alone, and the last five are of request Seven: verdict, place, counts from depth 0, authority set, user set, and the counters explicit, mapping and any.
ANSWERS = {
    "A": (0, 0, [1, 2, 2], [11, 12], [11, 12], [1, 2, 2]),
    "B": (0, 0, [1, 2, 2, 2], [21, 22], [21, 22], [1, 2, 2]),
    "B10": (0, 0, [1] + [2] * 10, [21, 22], [21, 22], [1, 2, 2]),
    "B15": (0, 0, [1] + [2] * 15, [21, 22], [21, 22], [1, 2, 2]),
    "C": (0, 0, [], [], [], [1, 2, 2]),
    "D": (8, 1, [], [], [], [0, 2, 2]),
    "E": (0, 0, [1, 1], [1], [30, 31], [1, 2, 2]),
    "F": (0, 0, [], [], [], [1, 2, 0]),
    "G-self-issued": (0, 0, [1, 1, 1], [40], [40], [2, 3, 0]),
    "G": (0, 0, [], [], [], [1, 2, 0]),
    "H-50": (0, 0, [1, 1, 1], [50], [50], [0, 2, 2]),
    "H-51": (10, 2, [1, 1, 1], [50], [], [0, 2, 2]),
    "I-50": (10, 2, [1, 1, 1], [51], [], [0, 0, 2]),
    "I-51": (0, 0, [1, 1, 1], [51], [51], [0, 0, 2]),
    "J": (8, 2, [], [], [], [0, 0, 2]),
    "K": (0, 0, [1, 1], [70], [70], [1, 2, 2]),
    "K-before-last": (9, 1, [], [], [], [3, 3, 3]),
    "L-0": (10, 1, [], [], [], [0, 2, 2]),
    "L-1": (0, 0, [], [], [], [1, 2, 2]),
    "M": (10, 2, [], [], [], [0, 2, 2]),
    "repeated-pair": (11, 0, [], [], [], [0, 0, 0]),
    "pairs-apart": (0, 0, [1, 2, 1], [5, 8], [5, 8], [1, 2, 2]),
    "eleven-certificates": (0, 0, [1] + [1] * 11, [5], [5], [1, 2, 2]),
    "seventeen-listed": (0, 0, [1, 17, 17], list(range(100, 117)), list(range(100, 117)), [1, 2, 2]),
    "counters-8": (8, 2, [], [], [], [0, 2, 3]),
    "counters-9": (9, 2, [], [], [], [3, 2, 1]),
    "counters-end": (0, 0, [1, 1], [22], [22], [0, 2, 2]),
    "counters-self-issued": (0, 0, [1, 1, 1], [22], [22], [2, 3, 2]),
    "counters-255": (0, 0, [1, 1, 1], [22], [22], [1, 2, 2]),
}


def answer(verdict, place, counts, authority, user, counters):
    """The lines that the program writes: of a refusal the first alone."""
    rows = [["verdict", verdict, "place", place], ["counts"] + counts + [0] * (CERTIFICATES + 1 - len(counts)), ["authority"] + authority, ["user"] + user, ["counters"] + counters]
    return "".join(" ".join(map(str, row)) + "\n" for row in (rows[:1] if verdict in REFUSALS else rows))


def full(last_policy=None, last_subject=None, last_pair_repeats=False):
    """A sheet of the greatest length: full lists everywhere, and three skip values in each certificate."""
    certificates = []
    for i in range(CERTIFICATES):
        policies = [100 + j for j in range(LISTED)]
        pairs = [[100 + j, 100 + (j + i) % LISTED] for j in range(LISTED)]
        if i == CERTIFICATES - 1 and last_policy is not None:
            policies[-1] = last_policy
        if i == CERTIFICATES - 1 and last_subject is not None:
            pairs[-1][1] = last_subject
        if i == CERTIFICATES - 1 and last_pair_repeats:
            pairs[-1] = pairs[0]
        certificates.append(certificate(policies, pairs, skips=(255, 255, 255)))
    return sheet(certificates, users=range(100, 100 + LISTED))


def counted(count):
    """Sheets with so many user policies, policies and pairs."""
    policies = range(100, 100 + count)
    pairs = [(policy, policy + 1) for policy in policies]
    return {
        f"user_count_{count}": (packed(sheet([certificate()], users=policies)), 0),
        f"policy_count_{count}": (packed(sheet([certificate(policies)])), 0),
        f"mapping_count_{count}": (packed(sheet([certificate((), pairs)])), 0),
    }


def test_sheets():
    """The sheets of the reader's and writer's test program, in its order, each with the number expected."""
    e, longest = packed(KNOWN["E"]), packed(full())
    assert e == bytes.fromhex("1102001E001F42000200") and len(longest) == LONGEST
    skips = [certificate([5], [(5, 6)], True, (0, None, 255)), certificate([], [(7, 8)], False, (None, 9, None))]
    last = [certificate([5])] * (CERTIFICATES - 1)
    twice = packed(sheet([certificate([], [(5, 6), (5, 6)])], users=()))
    return {
        "case_e": (e, 0),
        "longest": (longest, 0),
        "every_known_skip": (packed(sheet(skips, users=())), 0),
        "ends_empty": (b"", 1),
        "ends_in_last_field": (longest[:-1], 1),
        "edition_2": (b"\x21", 2),
        "edition_0_and_more": (b"\x01" + e[1:], 2),
        "n_0": (b"\x10", 3),
        "n_11": (packed(sheet([certificate([5])] * 11)), 0),
        "n_15": (packed(sheet([certificate([5])] * 15)), 0),
        "n_15_alone": (b"\x1f", 1),
        **counted(17),
        **counted(31),
        "user_count_31_alone": (b"\x11\x1f", 1),
        "policy_count_0": (packed(sheet([[(1, 0), (1, 1), (5, 0)]])), 3),
        "policy_count_31_alone": (packed(sheet([[(1, 0), (1, 1), (5, 31)]])), 1),
        "last_mapping_count_0": (packed(sheet(last + [[(1, 0), (1, 0), (1, 1), (5, 0)]])), 3),
        "last_mapping_count_31_alone": (packed(sheet(last + [[(1, 0), (1, 0), (1, 1), (5, 31)]])), 1),
        "first_user_0": (packed(sheet([certificate()], users=(0,))), 4),
        "last_subject_0": (packed(full(last_subject=0)), 4),
        "second_policy_repeats": (packed(sheet([certificate([5, 5, 0])])), 5),
        "last_policy_repeats": (packed(full(last_policy=100)), 5),
        "zero_before_repeat": (packed(sheet([certificate([5, 0, 5])])), 4),
        "pairs_apart": (packed(sheet([certificate([], [(5, 6), (5, 7), (8, 6), (6, 5)])])), 0),
        "second_pair_repeats": (twice, 11),
        "second_subject_cut_off": (twice[:-2], 1),
        "last_pair_repeats": (packed(full(last_pair_repeats=True)), 11),
        "repeat_names_any": (packed(sheet([certificate([70], [(1, 71), (1, 71)]), certificate([70])])), 11),
        "zeros_repeat": (packed(sheet([certificate([], [(0, 0), (0, 0)])])), 4),
        "fill_bit": (e[:-1] + b"\x01", 6),
        "fill_bit_first": (e[:-1] + b"\x10", 6),
        "byte_too_many": (e + b"\x00", 6),
        "byte_too_many_longest": (longest + b"\x00", 6),
    }


def line(name, content, number):
    """The line that the test program writes: a sheet that is read is written again, and not into a buffer that is too short."""
    again = f", write 0 length {len(content)} same, short buffer 7" if number == 0 else ""
    return f"{name}: read {number}{again}\n"


def store(crate, sheets):
    """The sheets as a program's data, their names as its arguments, and the lines expected."""
    data = ROOT / "crates" / crate / "data"
    data.mkdir(parents=True, exist_ok=True)
    for old in data.iterdir():
        old.unlink()
    for name, (content, _) in sheets.items():
        (data / name).write_bytes(content)
    (data.parent / "args").write_text("".join(f"{name}\n" for name in sheets))
    (data.parent / "stdout").write_text("".join(line(name, *expected) for name, expected in sheets.items()))


def main():
    listed = list(range(100, 100 + LISTED))
    known = KNOWN | {"longest": full()}
    answers = ANSWERS | {"longest": (0, 0, [1] + [LISTED] * CERTIFICATES, listed, listed, [1, 2, 2])}
    for name, fields in known.items():
        (ROOT / "examples" / f"{name}.sheet").write_bytes(packed(fields))
        (ROOT / "examples" / f"{name}.answer").write_text(answer(*answers[name]))
    store("sheet_check", test_sheets())


if __name__ == "__main__":
    main()
