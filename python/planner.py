"""The proved planner for guillotine cutting, from Python.

Every call of planner.h over the shared library, with jobs as data, plans as trees and storage that is lent by itself; and whole
orders through the command. Standard library alone. The calls and what they promise stand in docs/SCOPE.md.
"""
from __future__ import annotations

import ctypes
import ctypes.util
import json
import os
import subprocess
import tempfile
from dataclasses import dataclass, field
from math import isqrt
from typing import Any, Iterable, Sequence, Union

TURNING, FULL_DEMAND, OLD_BLOCK, GRAIN = 1, 2, 4, 8
MOST_NODES = 4095
MOST_CAPACITY = 4095
MOST_ROUNDS = 18
MOST_WEIGHT = 255
NONE_NEEDED = 2**64 - 1  # plates needed where no number of them is enough

# The parameters of planner.h by name: the element of a slice, and whether the call writes it. A number alone stands in `_NUMBERS`.
_SLICES = {
    "job": ctypes.c_uint8, "plan": ctypes.c_uint8, "sizes": ctypes.c_uint8, "weights": ctypes.c_uint8,
    "first_weights": ctypes.c_uint8, "second_weights": ctypes.c_uint8, "multipliers": ctypes.c_uint32,
    "kinds": ctypes.c_uint8, "operands": ctypes.c_uint16, "plate_lengths": ctypes.c_uint16, "plate_widths": ctypes.c_uint16,
    "profits": ctypes.c_uint64, "lengths": ctypes.c_uint16, "widths": ctypes.c_uint16, "table": ctypes.c_uint64,
    "neat_kinds": ctypes.c_uint8, "neat_operands": ctypes.c_uint16, "written_kinds": ctypes.c_uint8,
    "written_operands": ctypes.c_uint16, "true_kinds": ctypes.c_uint8, "positions": ctypes.c_uint32,
}
_NUMBERS = {"choices": ctypes.c_uint32, "limit": ctypes.c_uint32, "node": ctypes.c_uint64, "other": ctypes.c_uint64}

# Every call of planner.h: its parameters in their order, and the words of its answer.
CALLS = {
    "check_plan": ("job choices kinds operands", 69),
    "check_plan_block": ("job choices plan", 69),
    "bound": ("job choices weights lengths widths table", 4),
    "write_plan": ("job choices weights lengths widths table kinds operands", 5),
    "neat_plan": ("job choices kinds operands neat_kinds neat_operands", 1),
    "certify": ("job choices weights kinds operands lengths widths table", 3),
    "check_plan_staged": ("job choices limit kinds operands", 70),
    "bound_staged": ("job choices weights limit lengths widths table", 4),
    "certify_staged": ("job choices weights limit kinds operands lengths widths table", 3),
    "bound_two": ("job choices first_weights second_weights lengths widths table", 5),
    "exact": ("job choices lengths widths table kinds operands", 5),
    "find_weights": ("job choices kinds operands lengths widths table written_kinds written_operands", 66),
    "check_rack": ("job choices plate_lengths plate_widths profits kinds operands", 1),
    "saw_check": ("job choices kinds operands", 68),
    "saw_kinds": ("job choices kinds operands node", 2),
    "saw_operands": ("job choices kinds operands node", 2),
    "check_model": ("job choices sizes", 1),
    "true_plan": ("job choices sizes kinds operands true_kinds positions", 3),
    "plates_needed": ("job choices weights other lengths widths table", 3),
    "bound_lagrangian": ("job choices weights multipliers lengths widths table", 5),
}

# What each refusal says.
REFUSALS = {
    1: "job block too short", 2: "plate side outside 1 to 1,000", 3: "number of kinds outside 1 to 64", 4: "job block of another length",
    5: "side of a kind outside 1 to 1,000", 6: "price above 1,000,000", 7: "demand above 255", 8: "not a weight for each kind",
    9: "capacity above 4,095", 10: "plan arrays differ in length, or plan block of another length", 11: "no node, or above 4,095",
    12: "no such kind of node", 13: "no such piece", 14: "cut outside its range, or operand of waste not 0", 15: "piece does not fit",
    16: "copy passes the demand", 17: "node wanted, none left", 18: "nodes left over", 19: "list too short", 20: "table too short",
    21: "plan needs more nodes", 22: "limit on stages outside 1 to 8", 23: "too many stages", 24: "not a second weight for each kind",
    25: "both capacities too large together", 26: "idle cut", 27: "kerf above 20", 28: "rack not of 1 to 16 plates",
    29: "copies over the rack pass a demand", 30: "order too long for the exact call", 31: "sizes block of another length",
    32: "true size outside its range", 33: "model does not stand for the true sizes", 34: "plan does not fit at the true sizes",
    35: "grain byte above 1", 36: "turned piece of a kind that keeps its grain", 37: "not a multiplier for each kind",
    38: "multiplier above 1,000,000", 100: "answer too short", 101: "no such choice",
}


class Refused(Exception):
    """A call refused its input: the number and the place of docs/SCOPE.md."""

    def __init__(self, number: int, place: int) -> None:
        super().__init__(f"refusal {number} at {place}: {REFUSALS.get(number, 'unknown')}")
        self.number, self.place = number, place


class OrderRefused(Exception):
    """The command gave no plan: its words, a line for each fault."""


# ---- jobs ------------------------------------------------------------------------------------------------------------------------

@dataclass(frozen=True)
class Kind:
    """A kind of piece; with `grain` it keeps its grain and lies upright only."""
    length: int
    width: int
    price: int
    demand: int
    grain: bool = False


@dataclass(frozen=True)
class Job:
    """A plate and the kinds that are cut from it, in whole units."""
    length: int
    width: int
    kinds: Sequence[Kind]
    kerf: int = 0

    def block(self, choices: int = 0) -> bytes:
        header = [self.length, self.width, len(self.kinds)] + ([] if choices & OLD_BLOCK else [self.kerf])
        sizes = b"".join(_le(k.length, 2) + _le(k.width, 2) for k in self.kinds)
        pairs = b"".join(_le(k.price, 4) + _le(k.demand, 2) for k in self.kinds)
        grain = bytes(k.grain for k in self.kinds) if choices & GRAIN else b""
        return b"".join(_le(x, 2) for x in header) + sizes + pairs + grain


@dataclass(frozen=True)
class TrueSizes:
    """The true sizes of a job in any unit of length, for which the job is a model."""
    length: int
    width: int
    kerf: int
    kinds: Sequence[tuple[int, int]]

    def block(self) -> bytes:
        numbers = [self.length, self.width, self.kerf] + [side for kind in self.kinds for side in kind]
        return b"".join(_le(x, 4) for x in numbers)


def _le(number: int, size: int) -> bytes:
    return number.to_bytes(size, "little")


# ---- plans -----------------------------------------------------------------------------------------------------------------------

@dataclass(frozen=True)
class Waste:
    """A rectangle without a piece."""


@dataclass(frozen=True)
class Piece:
    """A piece of a kind, upright or turned."""
    kind: int
    turned: bool = False


@dataclass(frozen=True)
class Cut:
    """A cut of the `length` or the `width` at the first part's size."""
    direction: str
    at: int
    first: "Tree"
    second: "Tree"


Tree = Union[Waste, Piece, Cut]
_CUTS = {"length": 2, "width": 3}
_DIRECTIONS = {number: name for name, number in _CUTS.items()}


def arrays(tree: Tree) -> tuple[list[int], list[int]]:
    """The plan arrays of a tree: kinds and operands in preorder. A tree of any depth."""
    kinds, operands, waiting = [], [], [tree]
    while waiting:
        node = waiting.pop()
        if isinstance(node, Cut):
            kind, operand = _CUTS[node.direction], node.at
            waiting += [node.second, node.first]
        elif isinstance(node, Piece):
            kind, operand = (4 if node.turned else 1), node.kind
        else:
            kind, operand = 0, 0
        kinds.append(kind)
        operands.append(operand)
    return kinds, operands


def tree(kinds: Sequence[int], operands: Sequence[int]) -> Tree:
    """The tree of plan arrays that passed their check. A tree of any depth."""
    done: list[Tree] = []
    for kind, operand in zip(reversed(kinds), reversed(operands)):
        if kind in _DIRECTIONS:
            first, second = done.pop(), done.pop()
            done.append(Cut(_DIRECTIONS[kind], operand, first, second))
        else:
            done.append(Waste() if kind == 0 else Piece(operand, kind == 4))
    (root,) = done
    return root


# ---- answers ---------------------------------------------------------------------------------------------------------------------

@dataclass(frozen=True)
class Report:
    """What a plan that passes brings. A saw's report has no profit, an unstaged one no stages."""
    profit: int | None
    pieces: int
    waste: int
    trim: int
    sawdust: int
    copies: list[int]
    stages: int | None = None


@dataclass(frozen=True)
class Bound:
    """A bound: no tree that keeps every demand earns more. `lengths` and `widths` say how many normal ones there are, and `tree` is
    the plan behind the bound where it was written."""
    bound: int
    capacities: list[int]
    lengths: int
    widths: int
    tree: Tree | None = None


@dataclass(frozen=True)
class Certificate:
    """A plan's profit and the gap to the bound; with gap 0 it is best."""
    gap: int
    bound: int
    profit: int

    @property
    def best(self) -> bool:
        return self.gap == 0


@dataclass(frozen=True)
class WeightsFound:
    """The least bound met, the rounds run, the weights that first gave the bound, and why there were no more rounds: `demands` (the
    last plan keeps them), `rounds` (all 18 were run), `capacity` (the next would be above 4,095), `nodes` (the next plan has above
    4,095) or `memory` (the next table has more words than may be lent; more may give a lower bound)."""
    bound: int
    rounds: int
    weights: list[int]
    ended: str


@dataclass(frozen=True)
class TruePlan:
    """A plan at the true sizes, and what it uses of the plate."""
    tree: Tree
    used_length: int
    used_width: int


@dataclass(frozen=True)
class Plates:
    """How many plates a whole order needs; `needed` is None where no number of them is enough."""
    needed: int | None
    bound: int
    worth: int


@dataclass(frozen=True)
class Lagrangian:
    """A bound by multipliers, and the lowered job's own."""
    bound: int
    lowered: int
    capacity: int
    lengths: int
    widths: int


# ---- the library -----------------------------------------------------------------------------------------------------------------

class Library:
    """The shared library: each call of `CALLS` by its name, on lists and ctypes arrays."""

    def __init__(self, path: str | None = None) -> None:
        path = path or os.environ.get("PLANNER_LIBRARY") or ctypes.util.find_library("planner")
        if not path:
            raise OSError("libplanner is not installed: `make install`, or name it in PLANNER_LIBRARY")
        self._dll = ctypes.CDLL(path)
        for name in CALLS:
            getattr(self._dll, "planner_" + name).restype = ctypes.c_uint32

    def call(self, name: str, *arguments: object) -> list[int]:
        """The answer words of a call, or `Refused`. A ctypes array that is given is lent as it is, anything else is copied."""
        number, answer = self.raw(name, *arguments)
        if number:
            raise Refused(number, answer[0])
        return answer

    def raw(self, name: str, *arguments: object, words: int | None = None) -> tuple[int, list[int]]:
        """Number and answer words of a call."""
        parameters, wanted = CALLS[name]
        passed: list[object] = []
        for parameter, argument in zip(parameters.split(), arguments, strict=True):
            if parameter in _NUMBERS:
                passed.append(_NUMBERS[parameter](argument))
            else:
                slice_ = _slice(_SLICES[parameter], argument)
                passed += [slice_, ctypes.c_size_t(_length(argument))]
        answer = _room(ctypes.c_uint64, wanted if words is None else words)
        passed += [answer, ctypes.c_size_t(wanted if words is None else words)]
        number = getattr(self._dll, "planner_" + name)(*passed)
        return number, list(answer)[:wanted]


def _length(argument: object) -> int:
    return getattr(argument, "lent", len(argument))  # type: ignore[arg-type]


def _slice(element: type, argument: object) -> object:
    return argument if isinstance(argument, ctypes.Array) else _room(element, len(argument), argument)  # type: ignore[arg-type]


def _room(element: type, length: int, contents: Iterable[int] = ()) -> ctypes.Array:
    """An array that is never empty, for the header asks for a pointer that is not null; `lent` is its length for the call."""
    class Room(element * max(length, 1)):  # type: ignore[misc, valid-type]
        lent = length
    return Room(*contents)


# ---- a job and its calls ---------------------------------------------------------------------------------------------------------

@dataclass
class Planner:
    """A job, the choices of its calls, and the storage that they are lent. `memory` is the most words of a table."""
    job: Job
    turning: bool = False
    full_demand: bool = False
    memory: int = 1 << 27
    library: Library = field(default_factory=Library)

    @property
    def choices(self) -> int:
        grain = any(kind.grain for kind in self.job.kinds)
        return TURNING * self.turning | FULL_DEMAND * self.full_demand | GRAIN * grain

    def check(self, plan: Tree) -> Report:
        return _report(self._call("check_plan", *arrays(plan)))

    def check_block(self, plan: bytes) -> Report:
        """The check of a plan block."""
        return _report(self._call("check_plan_block", plan))

    def check_staged(self, plan: Tree, limit: int) -> Report:
        *words, stages = self._call("check_plan_staged", limit, *arrays(plan))
        return _report(words, stages=stages)

    def saw_check(self, plan: Tree) -> Report:
        return _report([0] + self._call("saw_check", *arrays(plan)), priced=False)

    def neat(self, plan: Tree) -> Tree:
        kinds, operands = self._plan_room()
        (nodes,) = self._call("neat_plan", *arrays(plan), kinds, operands)
        return tree(kinds[:nodes], operands[:nodes])

    def bound(self, weights: Sequence[int] | None = None) -> Bound:
        bound, capacity, p, r = self._filled("bound", [self._weights(weights)])
        return Bound(bound, [capacity], p, r)

    def bound_staged(self, limit: int, weights: Sequence[int] | None = None) -> Bound:
        bound, capacity, p, r = self._filled("bound_staged", [self._weights(weights), limit])
        return Bound(bound, [capacity], p, r)

    def bound_two(self, first: Sequence[int], second: Sequence[int]) -> Bound:
        bound, capacity, other, p, r = self._filled("bound_two", [first, second])
        return Bound(bound, [capacity, other], p, r)

    def write_plan(self, weights: Sequence[int] | None = None) -> Bound:
        kinds, operands = self._plan_room()
        bound, capacity, p, r, nodes = self._filled("write_plan", [self._weights(weights)], [kinds, operands])
        return Bound(bound, [capacity], p, r, tree(kinds[:nodes], operands[:nodes]))

    def exact(self) -> Bound:
        """The optimum of a short order and a plan that earns it; `capacities` has the number of states."""
        kinds, operands = self._plan_room()
        optimum, states, p, r, nodes = self._filled("exact", [], [kinds, operands])
        return Bound(optimum, [states], p, r, tree(kinds[:nodes], operands[:nodes]))

    def certify(self, plan: Tree, weights: Sequence[int] | None = None) -> Certificate:
        return Certificate(*self._filled("certify", [self._weights(weights), *arrays(plan)]))

    def certify_staged(self, plan: Tree, limit: int, weights: Sequence[int] | None = None) -> Certificate:
        return Certificate(*self._filled("certify_staged", [self._weights(weights), limit, *arrays(plan)]))

    def find_weights(self, plan: Tree) -> WeightsFound:
        """Weights in rounds. The table is lent for the largest capacity that `memory` allows, so that no round ends for want of it
        before the memory does."""
        lower = self.check(plan).profit or 0
        first = self.bound()
        words = min(first.lengths * first.widths * (MOST_CAPACITY + 1), self.memory)
        lengths, widths = self._lists()
        kinds, operands = self._plan_room()
        table = _room(ctypes.c_uint64, words)
        bound, rounds, *weights = self._call("find_weights", *arrays(plan), lengths, widths, table, kinds, operands)
        ended = self._ended(rounds, self._over_demands(kinds, operands), lower)
        return WeightsFound(bound, rounds, weights[: len(self.job.kinds)], ended)

    def _over_demands(self, kinds: Sequence[int], operands: Sequence[int]) -> list[int]:
        """Of each kind the copies less the demand, in the plan at the beginning of arrays."""
        over, wanted = [-kind.demand for kind in self.job.kinds], 1
        for kind, operand in zip(kinds, operands):
            if kind in (1, 4):
                over[operand] += 1
            wanted += 1 if kind in _DIRECTIONS else -1
            if wanted == 0:
                break
        return over

    def _ended(self, rounds: int, over: list[int], lower: int) -> str:
        """Why a run ended. Where its last plan and its rounds leave that open, they are run once more, one writing call each."""
        if max(over) <= 0:
            return "demands"
        if rounds == MOST_ROUNDS:
            return "rounds"
        weights = [0] * len(over)
        for number in range(rounds):
            written = self.write_plan(weights)
            over = self._over_demands(*arrays(written.tree or Waste()))
            weights = _next_weights(number, weights, written.bound - lower, over)
        try:
            self.write_plan(weights)
        except Refused as refused:
            return {9: "capacity", 20: "memory", 21: "nodes"}[refused.number]
        raise AssertionError("a round that ends a run is refused")

    def check_rack(self, plates: Sequence[tuple[int, int]], plans: Sequence[Tree]) -> list[int]:
        """The profits of the plans of a rack of plates, which share the demands."""
        profits = _room(ctypes.c_uint64, len(plates))
        parts = [arrays(plan) for plan in plans]
        kinds, operands = ([x for part in parts for x in part[side]] for side in (0, 1))
        self._call("check_rack", [p[0] for p in plates], [p[1] for p in plates], profits, kinds, operands)
        return list(profits)[: len(plates)]

    def saw_part(self, plan: Tree, node: int) -> tuple[int, int]:
        """First entry and number of entries of a node's part of the plan arrays."""
        first, count = self._call("saw_kinds", *arrays(plan), node)
        return first, count

    def saw_tree(self, plan: Tree, node: int) -> Tree | None:
        """The tree at a node of a plan, for the saw; None where the plan does not pass or has no such node."""
        kinds, operands = arrays(plan)
        (first, count), (at, entries) = (self._call(name, kinds, operands, node) for name in ("saw_kinds", "saw_operands"))
        return tree(kinds[first:first + count], operands[at:at + entries]) if count else None

    def check_model(self, sizes: TrueSizes) -> None:
        """Passes exactly if the job stands for the true sizes, and else raises `Refused` 33."""
        self._call("check_model", sizes.block())

    def true_plan(self, sizes: TrueSizes, plan: Tree) -> TruePlan:
        kinds, positions = _room(ctypes.c_uint8, MOST_NODES), _room(ctypes.c_uint32, MOST_NODES)
        nodes, length, width = self._call("true_plan", sizes.block(), *arrays(plan), kinds, positions)
        return TruePlan(tree(kinds[:nodes], positions[:nodes]), length, width)

    def plates_needed(self, weights: Sequence[int] | None = None, other: int = 0) -> Plates:
        needed, bound, worth = self._filled("plates_needed", [self._weights(weights), other])
        return Plates(None if needed == NONE_NEEDED else needed, bound, worth)

    def bound_lagrangian(self, multipliers: Sequence[int], weights: Sequence[int] | None = None) -> Lagrangian:
        return Lagrangian(*self._filled("bound_lagrangian", [self._weights(weights), multipliers]))

    def _weights(self, weights: Sequence[int] | None) -> Sequence[int]:
        return [0] * len(self.job.kinds) if weights is None else weights

    def _call(self, name: str, *arguments: object) -> list[int]:
        return self.library.call(name, self.job.block(self.choices), self.choices, *arguments)

    def _filled(self, name: str, before: list, after: list | None = None) -> list[int]:
        """A call that fills a table: it is lent one word first, and then what refusal 20 asks for."""
        words = 1
        while True:
            lengths, widths = self._lists()
            try:
                return self._call(name, *before, lengths, widths, _room(ctypes.c_uint64, words), *(after or []))
            except Refused as refused:
                if refused.number != 20 or refused.place > self.memory:
                    raise
                words = refused.place

    def _lists(self) -> tuple[ctypes.Array, ctypes.Array]:
        sides = (self.job.length, self.job.width)
        first, second = (_room(ctypes.c_uint16, side + self.job.kerf + 1) for side in sides)
        return first, second

    def _plan_room(self) -> tuple[ctypes.Array, ctypes.Array]:
        return _room(ctypes.c_uint8, MOST_NODES), _room(ctypes.c_uint16, MOST_NODES)


def _next_weights(number: int, weights: Sequence[int], gap: int, over: Sequence[int]) -> list[int]:
    """The weights after a round: each is raised or lowered by the root of its distance times the scale."""
    under = sum(distance * distance for distance in over) << (number // 3)
    scale = max(2 * gap, under)
    steps = [min(isqrt(abs(distance) * scale // under), MOST_WEIGHT) for distance in over]
    moved = [weight + step if distance > 0 else weight - step for weight, step, distance in zip(weights, steps, over)]
    return [min(max(weight, 0), MOST_WEIGHT) for weight in moved]


def _report(words: Sequence[int], stages: int | None = None, priced: bool = True) -> Report:
    profit, pieces, waste, trim, *copies, sawdust = words
    return Report(profit if priced else None, pieces, waste, trim, sawdust, copies, stages)


# ---- whole orders ----------------------------------------------------------------------------------------------------------------

def plan_order(order: str | os.PathLike[str], *options: str, command: str = "cutplan") -> dict[str, Any]:
    """Plans an order file with the command, and gives what its `--json` says; docs/ORDERS.md has its members. Further options of
    the command may follow, as "--one" or "--svg", "plan.svg". What the command says of a faulty order is in `OrderRefused`."""
    with tempfile.TemporaryDirectory() as folder:
        out = os.path.join(folder, "plan.json")
        done = subprocess.run([command, os.fspath(order), "--json", out, *options], capture_output=True, text=True)
        if done.returncode:
            raise OrderRefused(done.stderr.strip())
        with open(out, encoding="utf-8") as file:
            return json.load(file)
