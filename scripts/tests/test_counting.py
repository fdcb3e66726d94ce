"""Tests of scripts/counting.py: what it reads of what counters write, and how a run ended."""
import unittest

import counting

LIMITS = counting.Limits(seconds=10, megabytes=1024)


class Told(unittest.TestCase):
    def test_perf(self):
        self.assertEqual(counting.told_by_perf("# started on Tue\n\n123456,,instructions:u,7,100.00,,\n"), 123456)
        self.assertIsNone(counting.told_by_perf("<not supported>,,instructions:u,0,100.00,,\n"))

    def test_callgrind(self):
        self.assertEqual(counting.told_by_callgrind("==7== Events    : Ir\n==7== Collected : 434820\n"), 434820)
        self.assertIsNone(counting.told_by_callgrind("valgrind: no such program\n"))


class Ended(unittest.TestCase):
    def test_what_time_told_is_no_output(self):
        found = counting.ended(1, "refused\n", "1:2: wrong\nheld 2400 0.10 0.25 1\n", LIMITS)
        self.assertEqual(found, counting.Run(1, None, "refused\n", "1:2: wrong\n", 2400, 0.35))

    def test_a_line_without_its_end(self):
        self.assertEqual(counting.ended(0, "", "held up: held 9 1.00 0.00 0\n").stderr, "held up: ")

    def test_which_limit_ended_it(self):
        for status, limits, wanted in ((137, LIMITS, "seconds"), (-9, LIMITS, "seconds"), (counting.OUT_OF_MEMORY, LIMITS, "memory"), (2, LIMITS, None), (137, None, None),
                                       (counting.OUT_OF_MEMORY, None, None)):
            found = counting.ended(status, "", "held 1 0.00 0.00 0\n", limits)
            self.assertEqual((found.cut, found.status), (wanted, None if wanted == "seconds" else status))

    def test_a_run_of_which_nothing_is_told(self):
        for told in ("", "time: cannot run it\n", "held 1 0.00 0.00 0\nmore\n"):
            with self.assertRaises(SystemExit):
                counting.ended(0, "", told)


if __name__ == "__main__":
    unittest.main()
