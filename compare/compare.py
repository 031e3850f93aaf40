#!/usr/bin/env python3
"""Compares two programs with the reference, line by line.

    python3 compare.py DRIVER VIEWS [--count N] [--seed S]

DRIVER answers the calls for C, VIEWS those that give views. First the examples
and the edges of the rules, with the answers the papers give, then N
generated lines. What family 1 accepts is asked for in family 2, too, which has to
give the same. Each program is started anew for each batch, gets its lines on its
standard input and must answer each with one line. Exit 1 on a difference, on a TLV
form of more than four times the bytes of its TCP packet, and if a refusal that the
papers let a call give, or a way in which a look-up by ID can end, was never reached,
or only with offsets or numbers that tell nothing.
"""

import argparse
import subprocess
import sys
import time

sys.dont_write_bytecode = True

import coverage
import edges
import examples
import generate
import line_edges
import reference

SHOWN_DIFFERENCES = 20
SHOWN_TEXT = 6000               # characters of a line
BATCH_LINES = 2000
BATCH_TIME = 900                # seconds for a batch
TOLD_LINES = 100_000            # lines between two notes on how far it is
MOST_TIMES = 4                  # a TLV form has at most so many times the bytes of its TCP packet (request 8)


class Comparison:
    def __init__(self, driver, views):
        self.driver, self.views = driver, views
        self.compared = 0
        self.across = 0
        self.expected = 0
        self.differences = 0
        self.longest = self.closest = (0, 1)    # a TLV form's bytes and its TCP packet's
        self.coverage = coverage.Coverage()
        self.begin = time.monotonic()

    def difference(self, where, line, **answers):
        self.differences += 1
        if self.differences > SHOWN_DIFFERENCES:
            return
        print(f"difference {self.differences}, {where}")
        for name, text in (("call", line), *answers.items()):
            text = text if text is not None else "(nothing)"
            if len(text) > SHOWN_TEXT:
                text = f"{text[:SHOWN_TEXT]}... ({len(text)} characters)"
            print(f"  {name + ':':11}{text}")

    def item(self, where, line, expected, other):
        """One line: what the papers say, what the reference says, what the program says. Gives the refusal, or None."""
        own, refusal = reference.evaluate(line)
        self.compared += 1
        if own.startswith("error"):
            self.difference(where, line, reference=own, program=other)
            return refusal
        self.coverage.count(line, own, refusal)
        if expected is not None:
            self.expected += 1
            if own != expected:
                self.difference(where, line, papers=expected, reference=own)
        whole = reference.flat(line, own)
        if other != whole:
            self.difference(where, line, reference=whole, program=other)
        else:
            self.form(where, line, other)
        return refusal

    def form(self, where, line, answer):
        """Holds a TLV form to four times its packet."""
        sizes = form_sizes(line, answer)
        if sizes is None:
            return
        form, packet = sizes
        if form > MOST_TIMES * packet:
            self.difference(f"{where}: a form of {form} bytes, of a packet of {packet}", line, program=answer)
        self.longest = max(self.longest, sizes)
        self.closest = max(self.closest, sizes, key=lambda pair: pair[0] / pair[1])

    def in_family_2(self, program, items):
        """Items: (where, line, what family 1 was answered), in family 2."""
        for (where, line, first), second in zip(items, self.answers(program, items)):
            self.across += 1
            own = reference.answer(line)
            if not first == own == second:
                self.difference(f"{where}, in family 2", line, family_1=first, reference=own, program=second)

    def answers(self, program, items):
        """The line that a program answers each of these items with, None where there is none."""
        if not items:
            return []
        text = "".join(line + "\n" for _, line, _ in items)
        done = subprocess.run([program], input=text.encode("ascii"), stdout=subprocess.PIPE, timeout=BATCH_TIME)
        given = done.stdout.decode("ascii", "replace").split("\n")
        if given[-1] == "":
            given.pop()
        if done.returncode != 0:
            self.difference(f"the program ended with {done.returncode}", items[0][1])
        if len(given) > len(items):
            self.difference("an answer too many", items[-1][1], program=given[len(items)])
        return given + [None] * (len(items) - len(given))

    def batch(self, items):
        """Items: (where, line, expected answer or None)."""
        for program, wanted in ((self.driver, False), (self.views, True)):
            chosen = [item for item in items if reference.is_view(item[1]) == wanted]
            again = []
            for (where, line, expected), answer in zip(chosen, self.answers(program, chosen)):
                refusal = self.item(where, line, expected, answer)
                if answer is not None and accepted_in_1(line, refusal):
                    again.append((where, in_2(line), answer.replace("family 1 ", "family 2 ")))
            self.in_family_2(program, again)
        if self.compared // TOLD_LINES != (self.compared - len(items)) // TOLD_LINES:
            seconds = time.monotonic() - self.begin
            print(f"{self.compared} lines, {self.differences} differences, {seconds:.0f} s", file=sys.stderr)

    def run(self, count, seed):
        items = []
        for item in calls(count, seed):
            items.append(item)
            if len(items) == BATCH_LINES:
                self.batch(items)
                items = []
        if items:
            self.batch(items)


def form_sizes(line, answer):
    """How many bytes a TLV form and its TCP packet have, where one is written from the other or from a datagram, which
    has more around the same records; else None."""
    name, *words = line.split()
    if name not in ("form_of_packet", "form_of_datagram", "packet_of_form") or not answer.startswith("written"):
        return None
    given, size = len(words[1]) // 2, int(answer.split()[4])
    if name == "packet_of_form":
        return given, size
    return size, given - generate.AROUND[name.removeprefix("form_of_")] + generate.AROUND["packet"]


def accepted_in_1(line, refusal):
    """Does family 1 accept the input of a line, if with a number or a buffer that does not fit it?"""
    name, *words = line.split(" ", 2)
    if not reference.names_family(name) or words[0] != "1":
        return False
    return refusal is None or refusal.number == 16 or (refusal.number == 18 and name != "feed")


def in_2(line):
    """A line of family 1 in family 2, a feed with room for a packet of it."""
    name, _, *words = line.split()
    if name == "feed":
        words[-1] = str(max(int(words[-1]), reference.FAMILIES[2].packet))
    return reference.in_family(2, " ".join((name, *words)))


def calls(count, seed):
    """All calls of a run: (where, line, expected answer or None)."""
    for name, line, expected in examples.example_calls():
        yield f"example {name}", line, expected
    for name, line, expected in edges.edge_calls():
        yield f"edge {name}", line, expected
    for name, line, expected in line_edges.line_edge_calls():
        yield f"edge of lines {name}", line, expected
    for place, line in enumerate(generate.lines(count, seed), 1):
        yield f"line {place} of seed {seed}", line, None


def main():
    parser = argparse.ArgumentParser(usage="compare.py DRIVER VIEWS [--count N] [--seed S]", allow_abbrev=False)
    parser.add_argument("driver")
    parser.add_argument("views")
    parser.add_argument("--count", type=int, default=15000)
    parser.add_argument("--seed", type=int, default=1)
    options = parser.parse_args()
    if options.count < 0:
        parser.error("--count is below 0")
    comparison = Comparison(options.driver, options.views)
    try:
        comparison.run(options.count, options.seed)
    except (OSError, subprocess.TimeoutExpired) as error:
        print(f"a program could not be run to its end: {error}")
        return 1
    complete = comparison.coverage.report()
    for said, (form, packet) in (("most bytes", comparison.longest), ("most times its packet", comparison.closest)):
        print(f"TLV form of the {said}: {form} bytes, packet {packet} bytes, {form / packet:.4f} times")
    seconds = time.monotonic() - comparison.begin
    print(f"{comparison.compared} lines compared ({options.count} generated with seed {options.seed}, "
          f"{comparison.expected} with an answer from the papers), {comparison.across} asked in family 2 again, "
          f"{comparison.differences} differences, {seconds:.0f} s")
    return 0 if complete and comparison.differences == 0 else 1


if __name__ == "__main__":
    sys.exit(main())
