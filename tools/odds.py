"""How often a quorum is left, and what it costs, where servers are down independently of each other: what tools/availability prints.

A server is (p, q): up with probability p, down with q = 1 - p. Servers and costs are lists by number, with nothing at 0. All sums are of products of
probabilities, so that also small ones keep their first digits; each step up the tree adds at most the errors of its two sides.

The tree's quorums are those of the product: a server with a quorum of one side, or a quorum of each side; handed out is the first of least cost among those
that are up, in the order of docs/DEFINITIONS.md."""
import functools
from typing import NamedTuple

# Of outcomes below this probability the costs are left out, and what they come to together is told; and how many outcomes are looked at in all.
LEAST, MOST_STEPS, MOST_MISSING = 1e-22, 20_000_000, 1e-12


class TooManyCosts(Exception):
    """The subtrees have too many different costs."""


class Odds(NamedTuple):
    """A quorum is left, none is left; size and cost of the one handed out, on average of the times when one is."""

    left: float
    none: float
    size: float
    cost: float


# The tree


def both_ways(up):
    """Of each subtree the probabilities that a quorum is left and that none is, by the number of its top."""
    found = [None] * len(up)
    for at in reversed(range(1, len(up))):
        p, q = up[at]
        if 2 * at >= len(up):
            found[at] = p, q
        else:
            (l, no_l), (r, no_r) = found[2 * at], found[2 * at + 1]
            found[at] = p * (l + r * no_l) + q * l * r, q * (no_l + no_r * l) + p * no_l * no_r
    return found


def weights(up):
    """Of each server how much less often a quorum of the tree is left without it."""
    found, told, counts = both_ways(up), [None] * len(up), [0.0, 1.0, *([0.0] * (len(up) - 2))]
    for at in range(1, len(up)):
        p, q = up[at]
        if 2 * at >= len(up):
            told[at] = p * counts[at]
            continue
        (l, no_l), (r, no_r) = found[2 * at], found[2 * at + 1]
        # The top decides where one side alone has a quorum; a side where the top is up and the other has none, or down and the other has one.
        told[at] = p * counts[at] * (l * no_r + r * no_l)
        counts[2 * at], counts[2 * at + 1] = counts[at] * (p * no_r + q * r), counts[at] * (p * no_l + q * l)
    return told


class Outcomes:
    """Of each kind of subtree the least costs that it may have: for each cost its probability, and that times the size of the quorum, on average."""

    def __init__(self, up, costs):
        self.up, self.costs, self.odds, self.steps, self.kept = up, costs, both_ways(up), 0, {}

    def of(self, at):
        """The outcomes of a subtree with a number for its kind: equal ones are looked at once."""
        if 2 * at >= len(self.up):
            key, sides = (self.up[at], self.costs[at]), ()
        else:
            sides = self.of(2 * at), self.of(2 * at + 1)
            key = self.up[at], self.costs[at], sides[0][0], sides[1][0]
        if key not in self.kept:
            p = self.up[at][0]
            made = self.joined(at, *(it[1] for it in sides)) if sides else {self.costs[at]: (p, p)} if p else {}
            self.kept[key] = len(self.kept), made
        return self.kept[key]

    def joined(self, at, left, right):
        made, (p, q), cost = {}, self.up[at], self.costs[at]
        no_left, no_right = self.odds[2 * at][1], self.odds[2 * at + 1][1]
        self.steps += len(left) * len(right)
        if self.steps > MOST_STEPS:
            raise TooManyCosts()

        def put(of, chance, sized):
            if chance >= LEAST:
                old = made.get(of, (0.0, 0.0))
                made[of] = old[0] + chance, old[1] + sized

        for l, (pl, sl) in left.items():
            put(cost + l, p * pl * no_right, p * (pl + sl) * no_right)
        for r, (pr, sr) in right.items():
            put(cost + r, p * pr * no_left, p * (pr + sr) * no_left)
        for l, (pl, sl) in left.items():
            for r, (pr, sr) in right.items():
                both = pl * pr
                if both < LEAST:
                    continue
                sized = sl * pr + pl * sr
                put(l + r, q * both, q * sized)
                # The top is up: the first of the least of cost + l, cost + r and l + r.
                if r >= l and r >= cost:
                    put(cost + l, p * both, p * (both + sl * pr))
                elif l >= r and l >= cost:
                    put(cost + r, p * both, p * (both + pl * sr))
                else:
                    put(l + r, p * both, p * sized)
        return made


def of_tree(up, costs):
    left, none = both_ways(up)[1]
    _, outcomes = Outcomes(up, costs).of(1)
    known = sum(chance for chance, _ in outcomes.values())
    if left - known > MOST_MISSING:
        raise TooManyCosts()
    sized, paid = sum(it[1] for it in outcomes.values()), sum(cost * it[0] for cost, it in outcomes.items())
    return Odds(left, none, sized / known, paid / known) if known else Odds(left, none, 0.0, 0.0)


# Other systems of as many servers


def more(counts, server, most):
    """The probabilities of so many servers up, with one server more; counts from `most` on are together in the last."""
    p, q = server
    told = [a * q + b * p for a, b in zip([*counts, 0.0], [0.0, *counts])]
    return told if len(told) <= most + 1 else [*told[:most], told[most] + told[most + 1]]


def of_majority(up, costs):
    """A quorum is more than half of the servers; handed out are the cheapest that are up."""
    servers, need = sorted(range(1, len(up)), key=lambda at: costs[at]), len(up) // 2
    after = [[1.0]]
    for at in reversed(servers):
        after.append(more(after[-1], up[at], need))
    left, none = after[-1][need], sum(after[-1][:need])
    if len(set(costs[1:])) == 1 or not left:
        return Odds(min(1.0, left), none, need, need * costs[1])
    before, paid = [1.0], 0.0
    for at, counts in zip(servers, after[-2::-1]):
        # The server is handed out where fewer than are needed are up before it, and enough are with those behind it.
        behind = [0.0]
        for it in reversed(counts):
            behind.append(behind[-1] + it)
        enough = lambda wanted: behind[max(0, len(counts) - max(0, wanted))]
        paid += costs[at] * up[at][0] * sum(it * enough(need - 1 - found) for found, it in enumerate(before[:need]))
        before = more(before, up[at], need)
    return Odds(min(1.0, left), none, need, paid / left)


def of_one(up, costs):
    """Any server is a quorum; the cheapest that is up is handed out."""
    none, left, paid = 1.0, 0.0, 0.0
    for at in sorted(range(1, len(up)), key=lambda at: costs[at]):
        left, paid, none = left + none * up[at][0], paid + none * up[at][0] * costs[at], none * up[at][1]
    return Odds(left, none, 1, paid / left if left else 0.0)


def of_all(up, costs):
    """All servers together are the one quorum."""
    none = 0.0
    for p, q in up[1:]:
        none = none + (1 - none) * q
    left = functools.reduce(lambda found, it: found * it[0], up[1:], 1.0)
    return Odds(left, none, len(up) - 1, sum(costs[1:]))
