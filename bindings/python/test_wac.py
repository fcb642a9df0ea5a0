"""Tests of wac.py. They need the shared library: python3 -m unittest."""
import doctest
import json
import threading
import unittest

import wac

FIRST = "package a:b; let x = y; export x.z; // why"
FIRST_PRINTED = "package a:b;\n\nlet x = y;\n\nexport x.z;\n"

# A component that imports a function `y` and exports it as `f`: a type section with `func()`, an import section and an
# export section.
COMPONENT = bytes.fromhex("0061736d0d000100 07050140000100 0a06010001790100 0b0701000166010000")


class Calls(unittest.TestCase):
    def setUp(self):
        self.front = wac.Front()

    def test_what_is_written(self):
        self.assertEqual(self.front.format(FIRST), FIRST_PRINTED)
        self.assertEqual(self.front.tidy(FIRST), FIRST_PRINTED[:-1] + " // why\n")
        self.assertEqual(self.front.tokens("x:string"), ["0+8 package name"])
        self.assertEqual(self.front.packages("package a:b; let x = new c:d@1.0.0 {};"), ["c:d@1.0.0"])
        self.assertEqual(self.front.resolve("package a:b; import y: func();"), ["0 import y: function [y]"])
        package = json.loads(self.front.json(FIRST))["directive"]["package"]
        self.assertEqual(package["string"], "a:b")

    def test_layout(self):
        self.assertTrue(self.front.is_formatted(FIRST_PRINTED))
        self.assertFalse(self.front.is_formatted(FIRST))
        with self.assertRaises(wac.WacError):
            self.front.is_formatted("package")

    def test_what_is_rejected(self):
        self.assertIsNone(self.front.parse_error(FIRST))
        error = self.front.parse_error("package a:b; let x y;")
        self.assertEqual((error.message, error.span), ("expected `=`, found identifier", wac.Span(19, 1)))
        with self.assertRaises(wac.WacError) as caught:
            self.front.format("package a:b; let x y;")
        self.assertEqual(str(caught.exception), "expected `=`, found identifier")

    def test_first_errors(self):
        self.assertIsNone(self.front.first_error("package a:b; import x: func();"))
        line = json.loads(self.front.first_error("package a:b;\nexport x;"))
        self.assertEqual((line["code"], line["line"], line["column"]), ("wac::undefined-name", 2, 8))

    def test_graphs(self):
        text = "package a:b; let x = new c:d { ... };"
        one, two = "package c:d; world w { import e:f/i; }", "package e:f; interface i { h: func(); }"
        graph = json.loads(self.front.graph(text, [one, two]))
        self.assertEqual(graph["imports"], [{"name": "e:f/i", "kind": "instance", "by": [0]}])
        with self.assertRaises(wac.WacError) as caught:
            self.front.graph(text, [one])
        found = caught.exception
        self.assertEqual((found.status, found.span), (wac.Status.BAD_PACKAGE, wac.Span(8 + 30, 3)))
        with self.assertRaises(wac.WacError) as caught:
            self.front.graph(text)
        self.assertEqual(caught.exception.span, wac.Span(25, 3))

    def test_components(self):
        text = "package a:b; let x = new c:d@1.0.0 { ... }; export x.f;"
        graph = json.loads(self.front.graph(text, [wac.Component("c:d@1.0.0", COMPONENT)]))
        self.assertEqual(graph["imports"], [{"name": "y", "kind": "function", "by": [0]}])
        with self.assertRaises(wac.WacError) as caught:
            self.front.graph(text, [wac.Component("c:d@1.0.0", COMPONENT[:9])])
        found = caught.exception
        self.assertEqual((found.status, found.span), (wac.Status.BAD_PACKAGE, wac.Span(8 + 9 + 8, 9)))

    def test_places_count_bytes(self):
        self.assertEqual(self.front.parse_error("/* é */ package a:b; let x y;").span, wac.Span(28, 1))

    def test_long_answers(self):
        text = "package a:b; " + "let x = y;" * 1000
        self.assertEqual(self.front.format(text), "package a:b;\n\n" + "\n".join(["let x = y;\n"] * 1000))
        self.assertGreater(len(self.front.json(text)), 2 * len(text) + 256)
        with self.assertRaises(wac.WacError) as caught:
            self.front.resolve(f"package a:b; export {'x' * 1000};")
        self.assertEqual(caught.exception.message, f"undefined name `{'x' * 1000}`")

    def test_nesting(self):
        text = "package a:b; let x = " + "(" * 257 + "y" + ")" * 257 + ";"
        error = self.front.parse_error(text)
        self.assertEqual((error.status, error.span), (wac.Status.NESTED_TOO_DEEP, wac.Span(21 + 256, 1)))
        self.assertIn("(" * 257, self.front.run(wac.Word.FMT, text, limit=257))

    def test_numbers_out_of_range(self):
        for word in (8, -1, 1 << 32):
            with self.assertRaises(ValueError):
                self.front.run(word, FIRST)
        deep = "package a:b; let x = " + "(" * 100000 + "y" + ")" * 100000 + ";"
        for limit in (-1, wac.LARGEST_LIMIT + 1):
            with self.assertRaises(ValueError):
                self.front.run(wac.Word.FMT, deep, limit)
            with self.assertRaises(ValueError):
                self.front.graph(deep, limit=limit)
        self.assertEqual(self.front.run(wac.Word.FMT, FIRST, wac.LARGEST_LIMIT), FIRST_PRINTED)

    def test_lines_end_in_lf(self):
        self.assertEqual(self.front.tokens(""), [])
        name = "a\u2028b"
        self.assertEqual(
            self.front.resolve(f'package a:b; import y as "{name}": func();'), [f"0 import {name}: function [y]"]
        )

    def test_threads(self):
        printed = []
        threads = [threading.Thread(target=lambda: printed.append(self.front.format(FIRST))) for _ in range(8)]
        for it in threads:
            it.start()
        for it in threads:
            it.join()
        self.assertEqual(printed, [FIRST_PRINTED] * 8)

    def test_no_library(self):
        with self.assertRaises(OSError):
            wac.Front("/nowhere/libwac.so")


def load_tests(loader, tests, pattern):
    tests.addTests(doctest.DocTestSuite(wac))
    return tests


if __name__ == "__main__":
    unittest.main()
