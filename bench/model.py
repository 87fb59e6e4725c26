"""A study as the problem defines it, for solvers that know nothing of Coord: times in seconds, in floats."""

import csv
import tomllib

# k and c in seconds, and the exponent: curves A, B and C of IEC 60255-151, and those of IEEE C37.112.
CURVES = {
    "iec-a": (0.14, 0.0, 0.02),
    "iec-b": (13.5, 0.0, 1.0),
    "iec-c": (80.0, 0.0, 2.0),
    "ieee-mi": (0.0515, 0.114, 0.02),
    "ieee-vi": (19.61, 0.491, 2.0),
    "ieee-ei": (28.2, 0.1217, 2.0),
}


class Model:
    """The relays, the terms of the cost and the rows of a network file and its currents table."""

    def __init__(self, network, currents):
        with open(network, "rb") as file:
            self.net = tomllib.load(file)
        self.study = {"sense": 110, "cap": 20, "load_percent": 120} | self.net["study"]
        self.relays = [{"plug_step": 1, "plug_count": 1, "dial_step": 1, "dial_count": 1, "load_amps": 0} | it for it in self.net["relay"]]
        self.number = {it["name"]: i for i, it in enumerate(self.relays)}
        with open(currents, encoding="utf-8") as file:
            records = list(csv.reader(file))[1:]
        self.amps = {(f, self.number[r]): int(a) for f, r, a in records if int(a) > 0}
        self.lines = {it["name"]: it for it in self.net["line"]}
        self.terms = [(f, i) for f in self.net["fault"] for i, r in enumerate(self.relays) if r["line"] == f["line"] and (f["name"], i) in self.amps]
        self.rows = [(f["name"], b, p) for f, p in self.terms for b in range(len(self.relays)) if self.backs(b, p) and (f["name"], b) in self.amps]
        self.steps = [[s for s in range(r["plug_count"]) if self.is_sensible(i, s)] for i, r in enumerate(self.relays)]

    def backs(self, b, p):
        """Whether relay b looks at the bus of relay p from the far end of another line."""
        if any(it["backup"] == self.relays[b]["name"] and it["primary"] == self.relays[p]["name"] for it in self.net.get("exempt", [])):
            return False
        line, bus = self.lines[self.relays[b]["line"]], self.relays[p]["bus"]
        ends = (line["from"], line["to"])
        return self.relays[b]["line"] != self.relays[p]["line"] and bus in ends and self.relays[b]["bus"] in ends and self.relays[b]["bus"] != bus

    def interval(self, b, p):
        """The coordination interval of a pair, in seconds."""
        names = (self.relays[b]["name"], self.relays[p]["name"])
        own = [it["cti_ms"] for it in self.net.get("interval", []) if (it["backup"], it["primary"]) == names]
        return (own or [self.study["cti_ms"]])[0] / 1000

    def multiple(self, i, s, amps):
        r = self.relays[i]
        return 100 * amps * r["ct_secondary"] / ((r["plug_first"] + s * r["plug_step"]) * r["ct_primary"])

    def is_sensible(self, i, s):
        """Whether the relay senses each current of its terms and rows with this pickup, and carries its load."""
        r = self.relays[i]
        used = {f["name"] for f, p in self.terms if p == i} | {f for f, b, _ in self.rows if b == i}
        plug = r["plug_first"] + s * r["plug_step"]
        loaded = plug * r["ct_primary"] >= self.study["load_percent"] * r["load_amps"] * r["ct_secondary"]
        return loaded and all(self.multiple(i, s, self.amps[f, i]) >= self.study["sense"] / 100 - 1e-12 for f in used)

    def seconds(self, i, s, fault):
        """The time of a relay at dial 1."""
        k, c, exponent = CURVES[self.relays[i]["curve"]]
        multiple = min(self.multiple(i, s, self.amps[fault, i]), self.study["cap"])
        return k / (multiple**exponent - 1) + c
