"""Tests of tools/availability and tools/odds.py, for companions/tools_check.py: `tests(tq)` gives what is not as it should be.

1. By enumeration of all sets of servers that are up, at 1 to 4 levels, with a probability and two costs for each server: how often a quorum is left, its size
   and its cost, for the tree, a majority, one and all; and each server's weight.
2. By fractions at ten levels: how often a quorum is left, with an error below 1e-12, and how often none is, with such a part of it.
3. By `tq` at ten levels: for sampled failures what `choose` and `choose write` answer is what the sums give where each server is up for certain or down for
   certain; and over all samples what it hands out is as often and as dear as the sums say, within five deviations.
4. By the command: its table and its pictures, and what it refuses."""
import fractions
import math
import os
import random
import subprocess
import tempfile
import xml.etree.ElementTree

import odds
import plain

ROOT = os.path.dirname(os.path.dirname(os.path.realpath(__file__)))
SEED, ERROR, SAMPLES = 1, 1e-12, 250
COSTS = [1, 1, 2, 5, 40]


def chance(dice):
    up = dice.choice([0.0, 1.0, 0.5, 0.9, 0.999, dice.random(), dice.random()])
    return up, 1 - up


def a_tree(dice, levels):
    """Probabilities and costs of a tree, by server."""
    count = 2**levels
    return [None, *(chance(dice) for _ in range(count - 1))], [0, *(dice.choice(COSTS) for _ in range(count - 1))]


# By enumeration


def by_cost(sets, costs):
    """The sets as bits, the first of least cost first."""
    return sorted(((sum(costs[it] for it in one), sum(1 << it for it in one), len(one)) for one in sets), key=lambda it: it[0])


def enumerated(up, wanted):
    """How often a set is left of these, its size and its cost; and how often each server is down while one is."""
    count = len(up) - 1
    found, without = [[], [], []], [[] for _ in up]
    for bits in range(0, 2 << count, 2):
        best = next((it for it in wanted if not it[1] & ~bits), None)
        if best is None:
            continue
        weight = math.prod(up[at][0] if bits >> at & 1 else up[at][1] for at in range(1, count + 1))
        for sums, it in zip(found, (1, best[2], best[0])):
            sums.append(weight * it)
        for at in range(1, count + 1):
            if not bits >> at & 1:
                without[at].append(weight)
    left, size, cost = map(math.fsum, found)
    return (left, size / left, cost / left) if left else (left, 0, 0), [math.fsum(it) for it in without]


def is_near(one, other):
    return abs(one - other) <= ERROR * max(1, abs(other))


def majorities(count, costs):
    """The sets of just more than half of the servers."""
    sets = [[it for it in range(1, count + 1) if bits >> it & 1] for bits in range(0, 2 << count, 2)]
    return by_cost([it for it in sets if len(it) == (count + 1) // 2], costs)


def tree_faults(levels, dice):
    up, costs = a_tree(dice, levels)
    wanted, without = enumerated(up, by_cost(plain.members(levels, 1), costs))
    told, count = odds.of_tree(up, costs), len(up) - 1
    if not all(map(is_near, (told.left, *told[2:]) if told.left else (0, 0, 0), wanted)) or not is_near(told.none, 1 - wanted[0]):
        yield f"tools/odds.py, {levels} levels, {up}, {costs}: the tree's odds are {told}, by enumeration {wanted}"
    for at, weight in enumerate(odds.weights(up)[1:], 1):
        # Where the server is never down its loss is looked at in a tree where it is.
        lost = without[at] / up[at][1] if up[at][1] else odds.both_ways([*up[:at], (0.0, 1.0), *up[at + 1 :]])[1][0]
        if not is_near(weight, wanted[0] - lost):
            yield f"tools/odds.py, {levels} levels, {up}: the weight of {at} is {weight}, by enumeration {wanted[0] - lost}"
    others = {"majority": majorities(count, costs), "one": by_cost([[it] for it in range(1, count + 1)], costs), "all": by_cost([range(1, count + 1)], costs)}
    for name, sets in others.items():
        if levels < 4:
            told, (wanted, _) = getattr(odds, f"of_{name}")(up, costs), enumerated(up, sets)
            if not all(map(is_near, (told.left, told.none), (wanted[0], 1 - wanted[0]))) or wanted[0] and not all(map(is_near, told[2:], wanted[1:])):
                yield f"tools/odds.py, {levels} levels, {up}, {costs}: the odds of {name} are {told}, by enumeration {wanted}"


def by_enumeration():
    dice = random.Random(SEED)
    for levels, times in ((1, 6), (2, 20), (3, 12), (4, 2)):
        for _ in range(times):
            yield from tree_faults(levels, dice)


# By fractions, at ten levels


def exact(up, at=1):
    """The probability that a quorum of the subtree is left, without any error."""
    if 2 * at >= len(up):
        return up[at]
    left, right = exact(up, 2 * at), exact(up, 2 * at + 1)
    return up[at] * (1 - (1 - left) * (1 - right)) + (1 - up[at]) * left * right


def by_fractions():
    dice = random.Random(SEED)
    for most in (0.5, 0.9, 0.999):
        up = [None] + [fractions.Fraction(dice.randrange(int(most * 1000), 1001), 1000) for _ in range(1023)]
        told, wanted = odds.both_ways([None, *((float(p), float(1 - p)) for p in up[1:])])[1], exact(up)
        if abs(fractions.Fraction(told[0]) - wanted) > ERROR or abs(fractions.Fraction(told[1]) / (1 - wanted) - 1) > ERROR:
            yield f"tools/odds.py, 10 levels: a quorum is left with {told}, exactly with {float(wanted)}, not with {float(1 - wanted)}"


# By the chooser of the product


def answers(tq, costs, samples):
    """What `choose` and `choose write` answer at each set of servers that are down."""
    lines, down = [f"cost {at} {costs[0][at]} {costs[1][at]}" for at in range(1, 1024)], set()
    for one in samples:
        lines += [f"down {at}" for at in one - down] + [f"up {at}" for at in down - one] + ["choose", "choose write"]
        down = one
    done = subprocess.run([tq, "shell", "--levels", "10"], input="\n".join(lines).encode(), stdout=subprocess.PIPE, check=True)
    told = [it.split() for it in done.stdout.decode().split("\n") if it.startswith(("quorum", "blocked"))]
    both = [(len(it) - 3, int(it[-1])) if it[0] == "quorum" else None for it in told]
    return list(zip(both[::2], both[1::2]))


def certain(down, costs):
    """Size and cost that the sums give where these servers are down and the others up."""
    told = odds.of_tree([None, *((0.0, 1.0) if at in down else (1.0, 0.0) for at in range(1, 1024))], costs)
    return (told.size, told.cost) if told.left else None


def by_chooser(tq):
    dice = random.Random(SEED)
    up = [None] + [(p, 1 - p) for p in (dice.choice([0.4, 0.5, 0.6]) for _ in range(1023))]
    costs = [[0, *(dice.choice([1, 2, 10]) for _ in range(1023))] for _ in range(2)]
    samples = [{at for at in range(1, 1024) if dice.random() < up[at][1]} for _ in range(SAMPLES)]
    few = [frozenset(dice.sample(range(1, 1024), dice.choice([0, 1, 40, 500]))) | {1, 2, 3} for _ in range(10)]
    told = answers(tq, costs, samples + few)
    for at, one in enumerate((samples + few)[-25:], SAMPLES + len(few) - 25):
        for found, its_costs in zip(told[at], costs):
            if found != certain(one, its_costs):
                yield f"sampled failures {at} of seed {SEED}: tq hands out size and cost {found}, the sums say {certain(one, its_costs)}"
    for purpose, its_costs in enumerate(costs):
        handed, wanted = [it[purpose] for it in told[:SAMPLES]], odds.of_tree(up, its_costs)
        lists = [([float(it is not None) for it in handed], wanted.left)]
        lists += [([it[at] for it in handed if it], (wanted.size, wanted.cost)[at]) for at in (0, 1)]
        for found, mean in lists:
            average, spread = sum(found) / len(found), math.sqrt(sum((it - mean) ** 2 for it in found)) / len(found)
            if abs(average - mean) > 5 * spread or not 10 < len(found) or average == 1:
                yield f"over {SAMPLES} sampled failures tq gives {average} on average, the sums {mean}"


# By the command


def ran(words):
    return subprocess.run(["tools/availability", *words], cwd=ROOT, capture_output=True, text=True, check=False)


def by_command():
    with tempfile.TemporaryDirectory() as folder:
        paths = {name: f"{folder}/{name}" for name in ("costs", "up", "bad", "far")}
        for name, text in (("costs", "cost 1 5 1\ncost 2 3\n"), ("up", "1 0.99\n4 1/2\n"), ("bad", "cost 1 0\n"), ("far", "8 0.5\n")):
            with open(paths[name], "w", encoding="utf-8") as it:
                it.write(text)
        done = ran(["--levels", "3", "--costs", paths["costs"], "--up-of", paths["up"]])
        up = [None, (0.99, 0.01), (0.9, 0.1), (0.9, 0.1), (0.5, 0.5), (0.9, 0.1), (0.9, 0.1), (0.9, 0.1)]
        for name, costs in (("tree, to read", [0, 5, 3, 1, 1, 1, 1, 1]), ("tree, to write", [0, 1, 3, 1, 1, 1, 1, 1])):
            told, row = odds.of_tree(up, costs), next((it for it in done.stdout.split("\n") if it.startswith(name)), "")
            if row.split()[-4:] != [f"{told.left:.12f}", f"{told.none:.2e}", f"{told.size:.3f}", f"{told.cost:.3f}"]:
                yield f"tools/availability says {row}, and not {told}; {done.stderr}"
        refused = [["--levels", "11"], ["--up", "1.1"], ["--up", "x"], ["--costs", paths["bad"]], ["--costs", paths["up"]]]
        for words in [*refused, ["--up-of", paths["far"]], ["--up-of", folder]]:
            done = ran(["--levels", "3", *words])
            if done.returncode != 2 or done.stdout or "Traceback" in done.stderr:
                yield f"tools/availability {words} is not refused: {done}"
        for words, count in ((["--levels", "2"], 8), (["--levels", "3", "--costs", paths["costs"]], 12)):
            drawn = xml.etree.ElementTree.fromstring(ran([*words, "--picture"]).stdout)
            if len([it for it in drawn.iter() if it.get("class") == "curve"]) != count:
                yield f"tools/availability {words} --picture has not {count} curves"


def tests(tq):
    for test in (by_enumeration(), by_fractions(), by_chooser(tq), by_command()):
        yield from test
