"""The shared vectors through the module's raw calls, cell by cell."""

import glob
import pathlib
import struct
import unittest

from ixml import _CATEGORIES, Rounds, Verdict, _library

VECTORS = pathlib.Path(__file__).parents[2] / "tests" / "vectors"


def lines(call):
    for file in sorted(glob.glob(str(VECTORS / "*.tsv"))):
        with open(file, encoding="ascii") as opened:
            for line in opened:
                fields = line.rstrip("\n").split("\t")
                if fields[0] == call:
                    yield fields[1:]


def unhex(field):
    return b"" if field == "-" else bytes.fromhex(field)


def numbers(field):
    return [] if field == "-" else [int(word) for word in field.split(",")]


class Vectors(unittest.TestCase):
    def answered(self, answer, fields):
        places = answer.places
        seen = [answer.number, answer.length, answer.ambiguous, answer.version]
        seen += [places.byte, places.fault, places.grammar]
        expected = [int(field) for field in fields[:4] + fields[5:8]]
        self.assertEqual([int(value) for value in seen], expected)

    def test_check(self):
        count = 0
        for fields in lines("check"):
            self.answered(_library.check(unhex(fields[0])), fields[5:])
            count += 1
        self.assertGreater(count, 500)

    def test_read(self):
        count = 0
        for fields in lines("read"):
            main, table, room = (int(field) for field in fields[2:5])
            job = [unhex(fields[0]), unhex(fields[1]), main, _library.GRAMMAR_TABLE + table, room]
            answer, cells = _library.read(*job)
            self.answered(answer, fields[5:])
            result = numbers(fields[9])
            self.assertEqual(cells, result + [7] * (room - len(result)))
            count += 1
        self.assertGreater(count, 1200)

    def test_convert(self):
        count = 0
        for fields in lines("convert"):
            main, table, room = (int(field) for field in fields[2:5])
            job = [unhex(fields[0]), unhex(fields[1]), main, _library.GRAMMAR_TABLE + table, room]
            answer, cells = _library.convert(*job)
            self.answered(answer, fields[5:])
            result = unhex(fields[9])
            self.assertEqual(cells, result + b"\x07" * (room - len(result)))
            count += 1
        self.assertGreater(count, 1200)

    def test_judge(self):
        count = 0
        for fields in lines("judge"):
            table, scratch, room = (int(field) for field in fields[3:6])
            job = [unhex(fields[0]), unhex(fields[1]), numbers(fields[2])]
            answer, cells = _library.judge(*job, _library.GRAMMAR_TABLE + table, scratch, room)
            self.answered(answer, fields[6:])
            result = unhex(fields[10])
            self.assertEqual(cells, result + b"\x07" * (room - len(result)))
            count += 1
        self.assertGreater(count, 900)

    def test_cut(self):
        count = 0
        for fields in lines("cut"):
            main, table, room, rounds = (int(field) for field in fields[2:6])
            table += _library.GRAMMAR_TABLE
            cut = _library.Cut(unhex(fields[0]), unhex(fields[1]), main, table)
            progress, cells = cut.started, [7] * room
            if progress.answer.number == 0:
                for _ in range(rounds):
                    self.assertEqual(cut.round().answer.number, 0)
                progress, cells = cut.read(room)
            self.answered(progress.answer, fields[6:])
            self.assertEqual(progress.rounds, int(fields[14]))
            result = numbers(fields[10])
            self.assertEqual(cells, result + [7] * (room - len(result)))
            count += 1
        self.assertGreater(count, 500)

    def test_rounds(self):
        for grammar, record, _, rounds, _ in lines("rounds"):
            read = Rounds(unhex(grammar), unhex(record))
            self.assertEqual(list(read), list(range(1, int(rounds) + 1)))

    def test_tidy(self):
        count = 0
        for fields in lines("tidy"):
            room = int(fields[1])
            answer, cells = _library.tidy(unhex(fields[0]), room)
            self.answered(answer, fields[2:])
            result = unhex(fields[6])
            self.assertEqual(cells, result + b"\x07" * (room - len(result)))
            count += 1
        self.assertGreater(count, 400)

    def test_category(self):
        for code, letters in lines("category"):
            place = _library.category(int(code))
            known = _CATEGORIES[place] if place < len(_CATEGORIES) else "-"
            self.assertEqual(known, letters)

    def test_gate(self):
        count = 0
        for kind, limits, lat, lon, number, verdict in lines("gate"):
            bits = [] if limits == "-" else limits.split(",")
            values = [struct.unpack(">d", bytes.fromhex(word.zfill(16)))[0] for word in bits]
            self.assertEqual(len(values), {"box": 4, "band": 2, "anywhere": 0}[kind])
            answer = _library.gate(values, unhex(lat), unhex(lon))
            said = "-" if answer.verdict == 0 else Verdict(answer.verdict).name.lower()
            self.assertEqual([answer.number, said], [int(number), verdict])
            count += 1
        self.assertGreater(count, 500)

    def test_number(self):
        for text, bits in lines("number"):
            answer = _library.number(unhex(text))
            value = struct.pack(">d", answer.value).hex() if answer.number == 0 else "-"
            self.assertEqual(value, bits if bits == "-" else bits.zfill(16))


if __name__ == "__main__":
    unittest.main()
