#!/usr/bin/env python3
"""Writes books/full-size.book: a book near the limits, with a fixed seed. books/full-size.md tells what it is about.

    full_size.py            writes the book
    full_size.py least      prints its least cost and a plan, worked out region by region

Head office has decisions 0 to 3, and each of ten regions six more. A rule of a region names decisions of that
region and of head office only. So once head office has chosen, the regions do not touch each other, and the least
cost can be worked out without the planner's search.
"""
import os
import random
import sys

sys.path.insert(0, os.path.dirname(os.path.abspath(__file__)))
sys.dont_write_bytecode = True
import oracle
from oracle import Book, Decision, Rule

SEED = 4
REGIONS = 10
# codes, master data, night work, where the copies stand
HEAD = [Decision(4, True), Decision(3, True), Decision(4, True), Decision(5, False)]
# of each region: codec, sort order, partitions, index, the index's log, a copy of the sales
REGION = [
    Decision(16, True), Decision(8, True), Decision(12, True),
    Decision(6, False), Decision(5, False), Decision(10, False),
]
# cents from and to
CHEAP, FAIR, DEAR = (40, 110), (100, 250), (240, 900)


def base(region):
    return len(HEAD) + region * len(REGION)


def some(rnd, count, *among):
    """So many different conditions; among has for each pair a decision and its number of values."""
    found = []
    while len(found) < count:
        pairs = tuple(sorted((d, rnd.randint(1, size)) for d, size in among))
        if pairs not in found:
            found.append(pairs)
    return found


def head_rules():
    """Six of each kind."""
    forbid = [
        ((0, 1), (1, 1)), ((0, 2), (2, 1)), ((1, 2), (3, 1)), ((1, 3), (3, 2)), ((2, 3), (3, 5)), ((0, 4), (2, 4)),
    ]
    activate = [((1, 2),), ((1, 3),), ((0, 1), (2, 2)), ((0, 1), (2, 3)), ((0, 3), (2, 1)), ((0, 4), (2, 2))]
    price = [((0, 1), 0, 240), ((0, 2), 0, 180), ((0, 3), 0, 90), ((0, 4), 1, 0), ((1, 1), 1, 0), ((1, 2), 0, 60)]
    rules = [Rule("F", c) for c in forbid]
    rules += [Rule("A", c, target=3) for c in activate]
    rules += [Rule("P", (pair,), tier=tier, cents=cents) for pair, tier, cents in price]
    return rules


def region_rules(rnd, region):
    """25 of each kind."""
    codec, sort, parts, index, log, copy = [(base(region) + k, d.size) for k, d in enumerate(REGION)]
    codes, _, nights, _ = [(k, d.size) for k, d in enumerate(HEAD)]
    forbid = some(rnd, 11, codec, sort) + some(rnd, 6, codec, parts) + some(rnd, 3, sort, index)
    forbid += some(rnd, 2, index, log) + some(rnd, 1, parts, copy)
    forbid += some(rnd, 1, codes, codec) + some(rnd, 1, nights, parts)
    activate = [(index, c) for c in some(rnd, 4, sort) + some(rnd, 5, codec, sort)]
    activate += [(log, c) for c in some(rnd, 4, index) + some(rnd, 2, parts, index)]
    activate += [(copy, c) for c in some(rnd, 6, parts) + some(rnd, 4, codes, parts)]
    rules = [Rule("F", c) for c in forbid]
    rules += [Rule("A", c, target=target) for (target, _), c in activate]
    # every sort order has its price: one is cheap, one is fair, the others are dear
    orders = list(range(1, sort[1] + 1))
    rnd.shuffle(orders)
    fees = [rnd.randint(*CHEAP), rnd.randint(*FAIR)] + [rnd.randint(*DEAR) for _ in orders[2:]]
    rules += [Rule("P", ((sort[0], v),), cents=cents) for v, cents in zip(orders, fees)]
    dear = some(rnd, 9, codec) + some(rnd, 5, parts) + some(rnd, 1, index, log) + some(rnd, 1, index) + some(rnd, 1, copy)
    rules += [Rule("P", c, tier=rnd.choice((0, 0, 1, 2)), cents=rnd.randint(*DEAR)) for c in dear]
    return rules


def parts_of_book():
    rnd = random.Random(SEED)
    return head_rules(), [region_rules(rnd, region) for region in range(REGIONS)]


def book():
    head, regions = parts_of_book()
    return Book(HEAD + REGION * REGIONS, sum(regions, head))


def region_book(rules, region, head_plan):
    """A region's own book once head office has chosen: decisions from 0, and what head office's choices leave of the rules."""
    left = []
    for r in rules:
        if all(head_plan[d] == v for d, v in r.pairs if d < len(HEAD)):
            pairs = tuple((d - base(region), v) for d, v in r.pairs if d >= len(HEAD))
            left.append(r._replace(pairs=pairs, target=r.target - base(region) if r.kind == "A" else 0))
    return Book(REGION, left)


def least():
    """(cost, plan) of a cheapest lawful plan: the lowest tier that has one, then for each choice of head office every region apart."""
    head, regions = parts_of_book()
    head_book = Book(HEAD, head)
    head_plans = [(p, oracle.cost_of(head_book, p)) for p in oracle.every_lawful_plan(head_book)]
    for tier in sorted({0} | {r.tier for r in sum(regions, head)}):
        known, best = {}, None
        for head_plan, (head_tier, cents) in head_plans:
            if head_tier > tier:
                continue
            # the rules of regions name decisions 0 and 2 of head office
            seen = (head_plan[0], head_plan[2])
            if seen not in known:
                known[seen] = [
                    oracle.cheapest_within(region_book(rules, region, head_plan), tier)
                    for region, rules in enumerate(regions)
                ]
            if None not in known[seen]:
                total = cents + sum(c for c, _ in known[seen])
                plan = sum((p for _, p in known[seen]), head_plan)
                best = min(best or (total, plan), (total, plan))
        if best is not None:
            return ((tier, best[0]), best[1])
    return None


def main(words):
    text = oracle.write(book())
    back = oracle.load(text)
    assert not isinstance(back, oracle.Fault), back
    if words == ["least"]:
        cost, plan = least()
        assert oracle.lawful(back, plan) and oracle.cost_of(back, plan) == cost
        sys.stdout.write(oracle.outcome_text("settled", (cost, plan)))
        return
    if words:
        sys.exit(__doc__)
    path = os.path.join(os.path.dirname(os.path.abspath(__file__)), "..", "..", "books", "full-size.book")
    with open(path, "wb") as file:
        file.write(text)
    kinds = ", ".join(f"{len(back.of(k))} {k}" for k in "FAP")
    print(f"{len(text)} bytes, {len(back.decisions)} decisions, rules: {kinds}")


if __name__ == "__main__":
    main(sys.argv[1:])
