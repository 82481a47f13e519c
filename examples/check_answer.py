#!/usr/bin/env python3
"""`check_answer.py MLD REQ ANS` checks an answer of `plan` without `hysdel`: it prints `yes`, or the first test that
fails in the words of `hysdel check`. Its numbers have no limit, so it never says `range`."""
import json
import sys
from collections import defaultdict
from fractions import Fraction

def stack(mld, request):
    """The problem over the steps: boxes, rows (factors, bound, whether an equation), cost and branch columns."""
    columns, horizon, width = mld["columns"], request["horizon"], len(mld["columns"])
    states = [column["name"] for column in columns if column["role"] == "state"]
    box, unit = [tuple(map(Fraction, column["box"])) for column in columns], {"terms": [[0, 1]], "constant": 0}
    boxes, rows, cost = box * horizon + box[: len(states)], [], defaultdict(Fraction)
    boxes[: len(states)] = [(Fraction(request["start"][name]),) * 2 for name in states]
    discrete = [place for place, it in enumerate(columns) if it["kind"] == "bool" and it["role"] in ("input", "d")]

    def weigh(key, name, first, form):  # adds a form to the cost, whose constant stands under None
        weight = Fraction(request.get(key, {}).get(name, 0))
        for column, factor in form["terms"]:
            cost[first + column] += weight * Fraction(factor)
        cost[None] += weight * Fraction(form["constant"])

    for first in [step * width for step in range(horizon)]:
        for row in mld["rows"]:
            rows.append(({first + c: Fraction(f) for c, f in row["terms"]}, Fraction(row["bound"]), False))
        for state, form in enumerate(mld["next"]):
            equation = {first + c: -Fraction(f) for c, f in form["terms"]}
            rows.append(({**equation, first + width + state: Fraction(1)}, Fraction(form["constant"]), True))
        for place, column in enumerate(columns):
            weigh("step", column["name"], first + place, unit)
        for output in mld["outputs"]:
            weigh("step", output["name"], first, output)
    for state, name in enumerate(states):
        weigh("final", name, horizon * width + state, unit)
    return boxes, rows, cost, {step * width + place for step in range(horizon) for place in discrete}

def judge_leaf(boxes, rows, cost, leaf, path, claim):
    """The first test of a leaf that fails: its bound is the least over the boxes as the front of its path fixes them."""
    kind, fixed = "cost" if "cost" in leaf else "never", {column: (end, end) for column, end in path[: leaf["depth"]]}
    pairs = [(row, Fraction(text)) for row, text in leaf[kind] if Fraction(text) != 0]
    if leaf["depth"] > len(path) or any(row >= len(rows) for row, _ in pairs) or claim["kind"] == "none" and kind == "cost":
        return "shape"
    if any(multiplier < 0 and not rows[row][2] for row, multiplier in pairs):
        return "sign"
    factors = defaultdict(Fraction, cost if kind == "cost" else {})
    for row, multiplier in pairs:
        for column, factor in [*rows[row][0].items(), (None, -rows[row][1])]:
            factors[column] += multiplier * factor
    bound = factors.pop(None, 0) + sum(f * fixed.get(c, boxes[c])[0 if f > 0 else 1] for c, f in factors.items())
    wanted = Fraction(claim["bound" if claim["kind"] == "at_least" else "cost"] if kind == "cost" else 0)
    return f"below {bound} {wanted}" if bound < wanted or kind == "never" and bound == 0 else None

def judge_tree(boxes, rows, cost, branch, tree, claim):
    waiting = [()]  # the paths of the places to come, as fixings (column, value); the last is the next
    for number, place in enumerate(tree):
        path, column = waiting.pop() if waiting else None, place.get("column")
        if path is None or "column" in place and (column not in branch or column in dict(path)):
            return f"node {number} shape"
        why = None if "column" in place else judge_leaf(boxes, rows, cost, place, path, claim)
        if why:
            return f"node {number} {why}"
        waiting += [path + ((column, end),) for end in (1, 0)] if "column" in place else []
    return f"node {len(tree)} shape" if waiting else None

def is_solution(boxes, rows, cost, branch, best, bound):
    point = {None: 1, **dict(enumerate(map(Fraction, best["point"])))}
    sums = [(sum(f * point.get(c, 0) for c, f in factors.items()), limit, equal) for factors, limit, equal in rows]
    return (len(point) == len(boxes) + 1 and all(low <= point[c] <= high for c, (low, high) in enumerate(boxes))
            and all(point[c] in (0, 1) for c in branch)
            and all(total == limit if equal else total <= limit for total, limit, equal in sums)
            and sum(f * point[c] for c, f in cost.items()) == Fraction(best["cost"]) >= bound)

mld, request, answer = [json.load(open(name, encoding="utf-8")) for name in sys.argv[1:]]
problem, claim = stack(mld, request), answer["claim"]
best, failed = claim if claim["kind"] == "least" else claim.get("best"), judge_tree(*problem, answer["tree"], claim)
if not failed and best and not is_solution(*problem, best, Fraction(claim.get("bound", best["cost"]))):
    failed = "claim point"
print(f"no: {failed}" if failed else "yes")
sys.exit(1 if failed else 0)
