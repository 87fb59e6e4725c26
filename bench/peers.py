"""General mixed-integer solvers on the same problem: one binary a pickup step, and one whole number a dial."""

import os
import subprocess
import tempfile
import time


class Program:
    """The mixed-integer programme of a model: columns with bounds and costs, and rows with a lower and an upper bound."""

    def __init__(self, model):
        self.model, self.lower, self.upper, self.whole, self.cost, self.rows = model, [], [], [], [], []
        self.picks, self.shares, self.dials = [], [], []
        for i, relay in enumerate(model.relays):
            low, step = relay["dial_first"] / 1000, relay["dial_step"] / 1000
            high = low + step * (relay["dial_count"] - 1)
            self.picks.append({s: self.column(0, 1, True) for s in model.steps[i]})
            self.shares.append({s: self.column(0, high, False) for s in model.steps[i]})
            self.dials.append(self.column(0, relay["dial_count"] - 1, True))
            self.rows.append(({it: 1 for it in self.picks[i].values()}, 1, 1))
            self.rows.append(({it: 1 for it in self.shares[i].values()} | {self.dials[i]: -step}, low, low))
            for s in model.steps[i]:
                self.rows.append(({self.shares[i][s]: 1, self.picks[i][s]: -low}, 0, None))
                self.rows.append(({self.shares[i][s]: 1, self.picks[i][s]: -high}, None, 0))
        for fault, p in model.terms:
            times = self.times(p, fault["name"])
            for column, seconds in times.items():
                self.cost[column] += fault.get("weight", 1) * seconds
            for bound, (low, high) in (("least_ms", (1, None)), ("most_ms", (None, 1))):
                limit = model.relays[p].get(bound, 0) / 1000
                if limit:
                    self.rows.append((times, low and limit, high and limit))
        for fault, b, p in model.rows:
            waits = self.times(b, fault) | {column: -seconds for column, seconds in self.times(p, fault).items()}
            self.rows.append((waits, model.interval(b, p), None))

    def column(self, low, high, whole):
        self.lower.append(low)
        self.upper.append(high)
        self.whole.append(whole)
        self.cost.append(0.0)
        return len(self.cost) - 1

    def times(self, i, fault):
        """The time of a relay at a fault, by the columns that it is a sum of."""
        return {column: self.model.seconds(i, s, fault) for s, column in self.shares[i].items()}

    def settings(self, values):
        """The pickup step and the dial step of each relay."""
        return [(max(picks, key=lambda s: values[picks[s]]), round(values[dial])) for picks, dial in zip(self.picks, self.dials)]


def highs(program, limit):
    """HiGHS, by scipy: its seconds, its cost in microseconds and its settings."""
    import numpy
    from scipy.optimize import Bounds, LinearConstraint, milp
    from scipy.sparse import coo_matrix

    entries = [(r, c, v) for r, (row, _, _) in enumerate(program.rows) for c, v in row.items()]
    shape = (len(program.rows), len(program.cost))
    matrix = coo_matrix(([v for _, _, v in entries], ([r for r, _, _ in entries], [c for _, c, _ in entries])), shape)
    low = [-numpy.inf if it is None else it for _, it, _ in program.rows]
    high = [numpy.inf if it is None else it for _, _, it in program.rows]
    start = time.perf_counter()
    found = milp(
        program.cost,
        integrality=[int(it) for it in program.whole],
        bounds=Bounds(program.lower, program.upper),
        constraints=LinearConstraint(matrix.tocsr(), low, high),
        options={"mip_rel_gap": 0, "time_limit": limit},
    )
    seconds = time.perf_counter() - start
    return seconds, found.x is not None and round(found.fun * 1e6), found.x is not None and program.settings(found.x)


def cbc(program, limit):
    """CBC: its seconds, its cost in microseconds and its settings."""
    with tempfile.TemporaryDirectory() as folder:
        model, answer = os.path.join(folder, "model.lp"), os.path.join(folder, "answer")
        with open(model, "w", encoding="utf-8") as file:
            file.write(as_text(program))
        words = ["cbc", model, "-threads", "0", "-ratioGap", "0", "-allowableGap", "0", "-sec", str(limit), "-solve", "-solu", answer]
        start = time.perf_counter()
        subprocess.run(words, check=True, stdout=subprocess.DEVNULL)
        seconds = time.perf_counter() - start
        with open(answer, encoding="utf-8") as file:
            lines = file.read().splitlines()
    if not lines or "infeasible" in lines[0].lower():
        return seconds, False, False
    values = [0.0] * len(program.cost)
    for line in lines[1:]:
        words = line.replace("**", "").split()
        if words[1].startswith("x"):
            values[int(words[1][1:])] = float(words[2])
    return seconds, round(sum(c * v for c, v in zip(program.cost, values)) * 1e6), program.settings(values)


def as_text(program):
    """The programme in the LP format."""
    sum_of = lambda row: " ".join(f"{'-' if v < 0 else '+'} {abs(v)!r} x{c}" for c, v in row.items())
    lines = ["Minimize", " cost: " + sum_of({c: v for c, v in enumerate(program.cost) if v}), "Subject To"]
    for number, (row, low, high) in enumerate(program.rows):
        if low is not None and low == high:
            lines.append(f" e{number}: {sum_of(row)} = {low!r}")
            continue
        if low is not None:
            lines.append(f" l{number}: {sum_of(row)} >= {low!r}")
        if high is not None:
            lines.append(f" h{number}: {sum_of(row)} <= {high!r}")
    lines += ["Bounds", *(f" {low!r} <= x{c} <= {high!r}" for c, (low, high) in enumerate(zip(program.lower, program.upper)))]
    lines += ["Generals", *(f" x{c}" for c, whole in enumerate(program.whole) if whole), "End", ""]
    return "\n".join(lines)
