"""Operating times in floating point, for pictures and words alone. Whether a row is kept, `coord margins` says."""

# k and c in seconds, and the exponent: docs/MODEL.md.
CURVES = {
    "iec-a": (0.14, 0.0, 0.02),
    "iec-b": (13.5, 0.0, 1.0),
    "iec-c": (80.0, 0.0, 2.0),
    "ieee-mi": (0.0515, 0.114, 0.02),
    "ieee-vi": (19.61, 0.491, 2.0),
    "ieee-ei": (28.2, 0.1217, 2.0),
}


def constants(relay):
    if relay["curve"] == "custom":
        return relay["custom_k"] / 10_000, relay["custom_c"] / 10_000, relay["custom_j"] / relay["custom_h"]
    return CURVES[relay["curve"]]


def seconds(study, name, plug, dial, amps):
    """The operating time of a relay at a current in primary amperes; None if it does not pick up."""
    k, c, exponent = constants(study.relays[name])
    multiple = min(study.multiple(name, plug, amps), study.study["cap"])
    return dial / 1000 * (k / (multiple**exponent - 1) + c) if multiple > 1 else None
