"""The module as its users see it: examples in its text, refusals, threads."""

import concurrent.futures
import doctest
import unittest

import ixml

GRAMMAR = "p: @lat, -' ', @lon. lat: d+. lon: d+. -d: ['0'-'9']."


class Module(unittest.TestCase):
    def test_examples(self):
        results = doctest.testmod(ixml)
        self.assertGreater(results.attempted, 8)
        self.assertEqual(results.failed, 0)

    def test_text_and_bytes(self):
        self.assertEqual(ixml.convert(GRAMMAR, "45 12"), ixml.convert(GRAMMAR.encode(), b"45 12"))
        self.assertEqual(ixml.convert("a: ~[]*.", "é<").xml, "<a>é&lt;</a>")

    def test_refusals(self):
        for number, grammar, record in [
            (4, "a: ", ""),
            (6, "a: 'x'. a: 'y'.", ""),
            (12, "a: .", b"\xff"),
            (14, "a: ~[]*.", "x" * 201),
            (16, "a: 'x'.", "y"),
            (20, "@a: 'x'.", "x"),
        ]:
            with self.assertRaises(ixml.Refused) as caught:
                ixml.convert(grammar, record)
            self.assertEqual(caught.exception.number, number)
            self.assertIn(ixml.sentence(number), str(caught.exception))
        with self.assertRaises(ixml.NoReading):
            ixml.read("a: 'x'.", "")

    def test_long_results(self):
        grammar = "a: b*. b: 'x', +'" + "z" * 2000 + "'."
        self.assertEqual(len(ixml.convert(grammar, "x" * 200).xml), 200 * (2001 + 7) + 7)

    def test_both_engines(self):
        for record in ["", "x", "xyx"]:
            grammar = "a: a, a; 'x'; 'y'; ."
            self.assertEqual(ixml.read(grammar, record), ixml.read(grammar, record, plain=True))

    def test_version_mark(self):
        self.assertTrue(ixml.convert("ixml version '2'. a: 'x'.", "x").version_mismatch)

    def test_positions(self):
        gate = ixml.Box(south=44, north=46.5, west=11, east=13)
        say = lambda lat, lon: ixml.judge_position(gate, latitude=lat, longitude=lon)
        self.assertEqual(say("45", "12"), ixml.Verdict.INSIDE)
        self.assertEqual(say("12", "45"), ixml.Verdict.SWAPPED)
        self.assertEqual(say("1", "1"), ixml.Verdict.SUSPECT)
        for number, lat in [(31, "x"), (32, "91")]:
            with self.assertRaises(ixml.Refused) as caught:
                say(lat, "1")
            self.assertEqual(caught.exception.number, number)
        with self.assertRaises(ixml.Refused):
            ixml.judge_position(ixml.Band(2, 1), latitude="1", longitude="1")
        everywhere = ixml.judge_position(ixml.Anywhere(), latitude="-90", longitude="180")
        self.assertEqual(everywhere, ixml.Verdict.INSIDE)

    def test_threads(self):
        records = [f"{n} {n * 7}" for n in range(1, 400)]
        with concurrent.futures.ThreadPoolExecutor(4) as pool:
            converted = list(pool.map(lambda record: ixml.convert(GRAMMAR, record).xml, records))
        expected = [f"<p lat='{n}' lon='{n * 7}'/>" for n in range(1, 400)]
        self.assertEqual(converted, expected)


if __name__ == "__main__":
    unittest.main()
