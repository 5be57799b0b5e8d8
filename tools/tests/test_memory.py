"""What the calculator does with little memory: what it keeps for later results is given back before a line is refused."""
import os
import resource
import subprocess
import unittest

PROGRAM = os.environ["APLCALC"]
MEGABYTE = 1 << 20

# Each list has memory of its own, which the system gets back as soon as it is given back.
TUNABLES = {"GLIBC_TUNABLES": "glibc.malloc.mmap_threshold=%d" % MEGABYTE}

# Vectors of 32 and 40 megabytes.
SMALL, LARGE = 4_000_000, 5_000_000
LARGE_SUM = "%d\n" % (2 * LARGE)


def answer(lines, room):
    """What is written for these lines where the program has this many bytes of room."""

    def limit():
        resource.setrlimit(resource.RLIMIT_AS, (room, room))

    run = subprocess.run([PROGRAM, "--workers", "1"], input="".join(line + "\n" for line in lines), preexec_fn=limit, encoding="utf-8",
                         env={**os.environ, **TUNABLES}, stdout=subprocess.PIPE, stderr=subprocess.PIPE, check=True)
    return run.stdout


class LittleMemory(unittest.TestCase):
    def room_for(self, lines, wanted):
        """The least room, in steps of two megabytes, in which these lines are answered so."""
        for megabytes in range(50, 400, 2):
            try:
                if answer(lines, megabytes * MEGABYTE) == wanted:
                    return megabytes * MEGABYTE
            except subprocess.CalledProcessError:
                pass  # too little for the program itself
        self.fail("no room was enough")

    def test_what_is_kept_is_given_back(self):
        vectors = ["A←%d⍴2" % SMALL, "B←%d⍴2" % LARGE, "+/B"]
        room = self.room_for(vectors, LARGE_SUM)
        # The first value of A is kept when the second is made, and there is no room for it beside A and B.
        self.assertEqual(answer([vectors[0], "A←A+A", *vectors[1:]], room), LARGE_SUM)
        self.assertEqual(answer([vectors[0], "A←A+A", "A←A-A", "+/A", *vectors[1:]], room), "0\n" + LARGE_SUM)

    def test_a_line_too_large_is_refused_all_the_same(self):
        lines = ["A←%d⍴2" % SMALL, "A←A+A", "+/A"]
        total = "%d\n" % (4 * SMALL)
        room = self.room_for(lines, total)
        large = "B←%d⍴2" % (4 * LARGE)
        self.assertEqual(answer([*lines[:2], large, "+/A"], room), "WS FULL\n      %s\n%s" % (large, total))


if __name__ == "__main__":
    unittest.main()
