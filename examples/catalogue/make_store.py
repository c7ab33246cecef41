#!/usr/bin/env python3
"""Writes the catalogue's store text: a stretch of forty joints as a tool has it after a run. It is the same at every run.

make_store.py > store.txt
"""
import argparse

JOINTS = range(1010, 1410, 10)
BENDS = {1040: (2, 12), 1090: (2, 30), 1130: (1, 8), 1180: (3, 22), 1230: (2, 5), 1270: (2, 45), 1330: (1, 15), 1380: (3, 30)}
NO_WELD = {1080, 1090, 1260, 1270}  # the weld after these joints was not recorded
FEATURES_ON = [0, 1, 0, 2, 0, 1, 1, 0, 0, 3, 0, 0, 1, 1, 0, 2, 0, 1, 0, 4, 0, 1, 0, 2, 0, 0, 1, 3, 0, 1, 2, 0, 1, 0, 3, 0, 1, 0, 2, 1]  # joint by joint
DUG = {5002: 260114, 5003: 260114, 5004: 260115, 5006: 260203, 5008: 260203, 5011: 260219, 5012: 260301, 5013: 260301, 5017: 260302, 5020: 260310,
       5021: 260310, 5027: 260404, 5031: 260404, 5032: 260405, 5034: 260405}
REPAIRED = {5003: 1, 5004: 1, 5008: 3, 5012: 2, 5013: 1, 5017: 2, 5024: 1, 5032: 3, 5034: 2}  # 5024 has no dig record
VALVES = [1010, 1200, 1400]
CROSSINGS = {1060: 1, 1070: 1, 1190: 2, 1300: 3, 1370: 2}


def joints():
    odometer = 0
    for i, number in enumerate(JOINTS):
        yield number, odometer, 127 if number in CROSSINGS or number in BENDS else 95, 1 + i * i % 7 % 4
        odometer += 118 + i * 5 % 7


def features():
    identity = 5001
    for i, number in enumerate(JOINTS):
        for k in range(FEATURES_ON[i]):
            yield identity, number, 1 + (i + 2 * k) % 4, 1 + (3 * i + 2 * k) % 5
            identity += 1


def welds():
    for i, (number, following) in enumerate(zip(JOINTS, JOINTS[1:])):
        if number not in NO_WELD:
            yield number, following, 3 if i % 11 == 7 else 1 + i % 2


RELATIONS = [
    ("joint", "number, odometer in decimetres, wall in tenths of a millimetre, maker", joints()),
    ("feature", "feature, joint, kind (1 loss outside, 2 loss inside, 3 dent, 4 crack), depth class 1 to 5", features()),
    ("weld", "joint, next joint, kind (1 mill, 2 field, 3 tie-in)", welds()),
    ("bend", "joint, maker, angle in degrees", ((number, *bend) for number, bend in BENDS.items())),
    ("dig", "feature, day as yymmdd", DUG.items()),
    ("repair", "feature, kind (1 sleeve, 2 grinding, 3 cut-out)", REPAIRED.items()),
    ("valve", "joint", ((number,) for number in VALVES)),
    ("crossing", "joint, kind (1 river, 2 road, 3 rail)", CROSSINGS.items()),
]


class Options(argparse.ArgumentParser):
    def error(self, message):
        self.exit(2, f"{self.prog}: {message}; --help says what it takes\n")


def main():
    Options(description=__doc__, formatter_class=argparse.RawDescriptionHelpFormatter, allow_abbrev=False).parse_args()
    print("# A stretch of forty joints, by make_store.py.")
    for number, (name, meaning, records) in enumerate(RELATIONS):
        records = list(records)
        print(f"\n# {meaning}\nrelation {number} {name} {len(records[0])}")
        for r in records:
            print(name, *r)


if __name__ == "__main__":
    main()
