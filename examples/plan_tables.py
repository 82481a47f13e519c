#!/usr/bin/env python3
"""Writes the trajectory of an answer of `plan` as the two tables that `sim` reads.

    python3 examples/plan_tables.py MLD ANS START.csv INPUTS.csv

MLD is the matrix text of the source. An answer without a trajectory gives no tables. It needs Python 3 alone."""
import csv
import json
import sys


def read_plan(columns, answer):
    """The values of the columns in each step, and those of the states at the end; None without a trajectory."""
    best = answer["claim"] if answer["claim"]["kind"] == "least" else answer["claim"].get("best")
    if best is None:
        return None
    names, point = [column["name"] for column in columns], best["point"]
    end = len(point) - sum(column["role"] == "state" for column in columns)
    steps = [dict(zip(names, point[first:])) for first in range(0, end, len(names))]
    return steps, dict(zip(names, point[end:]))


def write_table(path, columns, role, records):
    names = [column["name"] for column in columns if column["role"] == role]
    with open(path, "w", newline="") as file:
        writer = csv.writer(file)
        writer.writerow(["step"] + names)
        writer.writerows([step] + [record[name] for name in names] for step, record in enumerate(records))


def main(matrices, answer, start, inputs):
    columns = json.load(open(matrices))["columns"]
    plan = read_plan(columns, json.load(open(answer)))
    if plan is None:
        sys.exit("the answer has no trajectory")
    write_table(start, columns, "state", plan[0][:1])
    write_table(inputs, columns, "input", plan[0])


if __name__ == "__main__":
    if len(sys.argv) != 5:
        sys.exit("usage: plan_tables.py MLD ANS START.csv INPUTS.csv")
    main(*sys.argv[1:])
