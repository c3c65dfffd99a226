"""Runs the examples of docs/SCOPE.md and compares the module with the C calls, as planner.h declares them, on generated input: every
call, its number, answer and lent words, and every method of `Planner`. PLANNER_LIBRARY names the library, PLANNER_HEADER the header."""
import ctypes
import os
import random
import re
import unittest
from pathlib import Path

import planner
from planner import Cut, Job, Kind, Piece, Planner, Refused, TrueSizes, Waste, arrays, tree

S = Job(5, 3, [Kind(2, 3, 7, 1), Kind(3, 1, 4, 2), Kind(2, 2, 5, 1)])
BEST = Cut("length", 2, Piece(0), Cut("width", 1, Piece(1), Piece(2)))
HEADER = Path(os.environ.get("PLANNER_HEADER", Path(__file__).parents[2] / "include" / "planner.h"))
WORDS = {"uint8_t": ctypes.c_uint8, "uint16_t": ctypes.c_uint16, "uint32_t": ctypes.c_uint32, "uint64_t": ctypes.c_uint64}


class Examples(unittest.TestCase):
    def setUp(self):
        self.s = Planner(S)

    def test_job_s(self):
        self.assertEqual(self.s.bound().bound, 19)
        written = self.s.write_plan([0, 1, 0])
        self.assertEqual((written.bound, written.capacities, written.tree), (16, [2], BEST))
        report = self.s.check(BEST)
        self.assertEqual((report.profit, report.pieces, report.waste, report.trim), (16, 13, 0, 2))
        self.assertEqual(self.s.check_block(plan_block(*arrays(BEST))), report)
        self.assertTrue(self.s.certify(BEST, [0, 1, 0]).best)
        self.assertEqual(self.s.certify(BEST).gap, 3)
        self.assertEqual(self.s.bound_two([0, 1, 0], [0, 0, 0]).bound, 16)
        self.assertEqual(self.s.bound_staged(1, [0, 1, 0]).bound, 14)
        self.assertEqual(self.s.check_staged(BEST, 2).stages, 2)
        self.assertEqual(self.s.exact().bound, 16)
        self.assertEqual(self.s.check_rack([(5, 3), (3, 2)], [BEST, Cut("width", 1, Piece(1), Waste())]), [16, 4])
        self.assertEqual(self.s.saw_check(BEST).copies[:3], [1, 1, 1])
        self.assertEqual(self.s.saw_part(BEST, 2), (2, 3))
        self.assertEqual((self.s.saw_tree(BEST, 2), self.s.saw_tree(BEST, 5)), (BEST.second, None))

    def test_why_rounds_end(self):
        self.assertEqual(self.s.find_weights(Waste()), planner.WeightsFound(16, 2, [0, 4, 0], "demands"))
        self.assertEqual(Planner(S, memory=20).find_weights(BEST), planner.WeightsFound(19, 1, [0, 0, 0], "memory"))
        steep = Planner(Job(6, 6, [Kind(1, 1, 1_000_000, 17)])).find_weights(Waste())
        self.assertEqual((steep.bound, steep.rounds, steep.ended), (36_000_000, 1, "capacity"))
        long = Planner(Job(3, 3, [Kind(3, 1, 25, 2), Kind(1, 2, 27, 1)])).find_weights(Waste())
        self.assertEqual(long, planner.WeightsFound(75, 18, [0, 9], "rounds"))

    def test_orders(self):
        self.assertEqual(self.s.plates_needed([0, 1, 0]), planner.Plates(2, 16, 20))
        self.assertEqual(self.s.plates_needed([0, 1, 0], other=4).needed, 1)
        self.assertEqual(self.s.bound_lagrangian([0, 0, 0]).bound, 19)

    def test_true_sizes(self):
        tiles = Planner(Job(8, 4, [Kind(1, 1, 1, 40)]))
        sizes = TrueSizes(4800, 2400, 1, [(599, 599)])
        tiles.check_model(sizes)
        drawn = tiles.true_plan(sizes, tiles.write_plan().tree)
        self.assertEqual((drawn.used_length, drawn.used_width), (4799, 2399))
        with self.assertRaises(Refused) as refused:
            Planner(Job(7, 4, [Kind(1, 1, 1, 40)])).check_model(sizes)
        self.assertEqual((refused.exception.number, refused.exception.place), (33, 0))

    def test_refusal(self):
        with self.assertRaises(Refused) as refused:
            self.s.check(Cut("length", 5, Waste(), Waste()))
        self.assertEqual((refused.exception.number, refused.exception.place), (14, 0))

    def test_deep_trees(self):
        deep = Waste()
        for _ in range(200_000):
            deep = Cut("length", 1, Piece(0), deep)
        kinds, operands = arrays(deep)
        again = tree(kinds, operands)
        self.assertEqual(arrays(again), (kinds, operands))
        unlink(deep)
        unlink(again)


def unlink(root):
    """Takes a deep tree apart, so that no destructor recurses."""
    waiting = [root]
    while waiting:
        node = waiting.pop()
        if isinstance(node, Cut):
            waiting += [node.first, node.second]
            object.__setattr__(node, "first", None)
            object.__setattr__(node, "second", None)


def plan_block(kinds, operands):
    return len(kinds).to_bytes(2, "little") + bytes(kinds) + b"".join(x.to_bytes(2, "little") for x in operands)


class Header:
    """The calls as planner.h declares them, made through ctypes without the module's table."""

    def __init__(self, library):
        self.library = library
        text = re.sub(r"/\*.*?\*/", "", HEADER.read_text(encoding="utf-8"), flags=re.S)
        declared = re.findall(r"uint32_t planner_(\w+)\(([^)]*)\);", text)
        self.calls = {name: self.parameters(takes) for name, takes in declared}

    def parameters(self, takes):
        """Names with the word of a slice, or of a number, the lengths of slices left out; the answer is the last."""
        found = re.findall(r"(?:const )?(\w+) (\*?)(\w+)", takes)
        return [(name, WORDS[word], star == "*") for word, star, name in found if word != "size_t"][:-1]

    def call(self, name, arguments, words):
        """The number, the answer and what every slice holds after the call."""
        passed, slices = [], []
        for (_, word, is_slice), argument in zip(self.calls[name], arguments, strict=True):
            if is_slice:
                slices.append((word * max(len(argument), 1))(*argument))
                passed += [slices[-1], ctypes.c_size_t(len(argument))]
            else:
                passed.append(word(argument))
        answer = (ctypes.c_uint64 * max(words, 1))()
        number = getattr(self.library._dll, "planner_" + name)(*passed, answer, ctypes.c_size_t(words))
        return number, list(answer), [list(lent) for lent in slices]


class Generated(unittest.TestCase):
    def setUp(self):
        self.rng = random.Random(7)
        self.library = planner.Library()
        self.header = Header(self.library)

    def job(self):
        sides = [self.rng.randrange(1, 9) for _ in range(2)]
        kinds = [Kind(*(self.rng.randrange(1, 6) for _ in range(4)), self.rng.random() < 0.3) for _ in range(self.rng.randrange(1, 4))]
        return Job(*sides, kinds, self.rng.randrange(2))

    def draw(self, parameter):
        if parameter == "choices":
            return self.rng.choice([0, 1, 2, 3, 4, 8, 9, 16])
        if parameter in ("limit", "node", "other"):
            return self.rng.randrange(12)
        if parameter == "job" and self.rng.random() < 0.8:
            return list(self.job().block(self.rng.choice([0, 4, 8])))
        if parameter in ("lengths", "widths"):
            return [7] * 40
        if parameter == "table":
            return [7] * 4000
        return [self.rng.randrange(5) for _ in range(self.rng.randrange(8))]

    def test_the_module_has_the_calls_of_the_header(self):
        names = {name: [parameter for parameter, _, _ in takes] for name, takes in self.header.calls.items()}
        self.assertEqual(names, {name: parameters.split() for name, (parameters, _) in planner.CALLS.items()})

    def test_answers_have_no_word_too_many(self):
        for name, (parameters, words) in planner.CALLS.items():
            arguments = [self.draw(parameter) for parameter in parameters.split()]
            self.assertEqual(self.library.raw(name, *arguments, words=words - 1)[0], 100, name)
            self.assertNotEqual(self.library.raw(name, *arguments, words=words)[0], 100, name)

    def test_calls_on_any_bytes(self):
        numbers = set()
        for _ in range(120):
            for name, (parameters, words) in planner.CALLS.items():
                arguments = [self.draw(parameter) for parameter in parameters.split()]
                lent = [planner._room(planner._SLICES[parameter], len(argument), argument) if isinstance(argument, list) else argument
                        for parameter, argument in zip(parameters.split(), arguments)]
                number, answer = self.library.raw(name, *lent)
                after = [list(argument) for argument in lent if isinstance(argument, ctypes.Array)]
                self.assertEqual((number, answer, after), self.header.call(name, arguments, words), name)
                numbers.add(number)
        self.assertGreater(len(numbers), 15)

    def test_methods_on_jobs(self):
        for _ in range(40):
            job = self.job()
            with_choices = Planner(job, turning=self.rng.random() < 0.5, full_demand=self.rng.random() < 0.5, library=self.library)
            weights = [self.rng.randrange(3) for _ in job.kinds]
            self.compare(with_choices, weights)

    def compare(self, p, weights):
        """Every method against the call that planner.h declares, with lists and a table that are large enough."""
        calls = Declared(self, p)
        best = p.exact()
        words, slices = calls.done("exact", *LISTS, TABLE, *ROOM)
        plan = slices[-2][: words[4]], slices[-1][: words[4]]
        self.assertEqual((best.bound, arrays(best.tree)), (words[0], plan))
        self.compare_bounds(p, calls, weights)
        self.compare_checks(p, calls, best.tree, plan)
        self.compare_certificates(p, calls, weights, best.tree, plan)
        self.compare_true_sizes(p, calls, best.tree, plan)

    def compare_bounds(self, p, calls, weights):
        bound, capacity, lengths, widths = calls.words("bound", weights, *LISTS, TABLE)
        self.assertEqual(p.bound(weights), planner.Bound(bound, [capacity], lengths, widths))
        words, slices = calls.done("write_plan", weights, *LISTS, TABLE, *ROOM)
        written = p.write_plan(weights)
        self.assertEqual(arrays(written.tree), (slices[-2][: words[4]], slices[-1][: words[4]]))
        self.assertEqual([written.bound, *written.capacities, written.lengths, written.widths], words[:4])
        self.assertEqual(p.bound_staged(3, weights).bound, calls.words("bound_staged", weights, 3, *LISTS, TABLE)[0])
        two = calls.words("bound_two", weights, weights[::-1], *LISTS, TABLE)
        self.assertEqual(p.bound_two(weights, weights[::-1]), planner.Bound(two[0], two[1:3], *two[3:]))
        needed, *rest = calls.words("plates_needed", weights, 3, *LISTS, TABLE)
        self.assertEqual(p.plates_needed(weights, 3), planner.Plates(None if needed == 2**64 - 1 else needed, *rest))
        ones = [1] * len(weights)
        lagrangian = calls.words("bound_lagrangian", weights, ones, *LISTS, TABLE)
        self.assertEqual(p.bound_lagrangian(ones, weights), planner.Lagrangian(*lagrangian))

    def compare_checks(self, p, calls, best, plan):
        report, words = p.check(best), calls.words("check_plan", *plan)
        areas = [report.profit, report.pieces, report.waste, report.trim, *report.copies, report.sawdust]
        self.assertEqual(areas, words)
        self.assertEqual(p.check_block(plan_block(*plan)), report)
        self.assertEqual(p.check_staged(best, 8).stages, calls.words("check_plan_staged", 8, *plan)[69])
        self.assertEqual(p.saw_check(best).copies, calls.words("saw_check", *plan)[3:67])
        self.assertEqual(list(p.saw_part(best, 1)), calls.words("saw_kinds", *plan, 1))
        self.assertEqual(p.saw_tree(best, 0), best)
        (nodes,), slices = calls.done("neat_plan", *plan, *ROOM)
        self.assertEqual(arrays(p.neat(best)), (slices[-2][:nodes], slices[-1][:nodes]))
        _, slices = calls.done("check_rack", [p.job.length], [p.job.width], [0], *plan)
        self.assertEqual(p.check_rack([(p.job.length, p.job.width)], [best]), slices[3])

    def compare_certificates(self, p, calls, weights, best, plan):
        certificate = calls.words("certify", weights, *plan, *LISTS, TABLE)
        self.assertEqual(p.certify(best, weights), planner.Certificate(*certificate))
        limit = max(p.check_staged(best, 8).stages, 1)
        certificate = calls.words("certify_staged", weights, limit, *plan, *LISTS, TABLE)
        self.assertEqual(p.certify_staged(best, limit, weights), planner.Certificate(*certificate))
        found, bound = p.find_weights(best), p.bound()
        words = calls.words("find_weights", *plan, *LISTS, [0] * (bound.lengths * bound.widths * 4096), *ROOM)
        self.assertEqual([found.bound, found.rounds, *found.weights], words[: 2 + len(weights)])
        self.assertNotEqual(found.ended, "memory")

    def compare_true_sizes(self, p, calls, best, plan):
        kinds = [(10 * kind.length, 10 * kind.width) for kind in p.job.kinds]
        sizes = TrueSizes(10 * p.job.length + 1, 10 * p.job.width + 1, 10 * p.job.kerf, kinds)
        block = list(sizes.block())
        number, answer, _ = calls.made("check_model", block)
        self.assertEqual(refusal(p.check_model, sizes), (number, answer[0]) if number else None)
        (nodes, *used), slices = calls.done("true_plan", block, *plan, *ROOM)
        drawn = p.true_plan(sizes, best)
        self.assertEqual(arrays(drawn.tree), (slices[-2][:nodes], slices[-1][:nodes]))
        self.assertEqual([drawn.used_length, drawn.used_width], used)


# Lists, a table and plan arrays that are long enough for the jobs that are drawn.
LISTS, TABLE, ROOM = [[0] * 40, [0] * 40], [0] * 60_000, [[0] * 200, [0] * 200]


class Declared:
    """The calls of planner.h on the job of a planner."""

    def __init__(self, test, p):
        self.test, self.first = test, [list(p.job.block(p.choices)), p.choices]

    def made(self, name, *arguments):
        return self.test.header.call(name, [*self.first, *arguments], planner.CALLS[name][1])

    def done(self, name, *arguments):
        """Answer and slices of a call that refuses nothing."""
        number, answer, slices = self.made(name, *arguments)
        self.test.assertEqual(number, 0, (name, answer[0]))
        return answer, slices

    def words(self, name, *arguments):
        return self.done(name, *arguments)[0]


def refusal(call, *arguments):
    """Number and place of what a call refuses, or None."""
    try:
        call(*arguments)
    except Refused as refused:
        return refused.number, refused.place
    return None


if __name__ == "__main__":
    unittest.main()
