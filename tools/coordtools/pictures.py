"""The pictures of a report, as SVG. Their curves are worked out in floating point; bars and labels of margins are coord's."""

import io
import subprocess

import matplotlib

matplotlib.use("svg")
matplotlib.rcParams.update({"svg.hashsalt": "coord", "font.size": 9, "axes.spines.top": False, "axes.spines.right": False, "font.family": "DejaVu Sans"})
from matplotlib import pyplot
from matplotlib.ticker import FuncFormatter

from . import curves

BACKUP, PRIMARY, KEPT, BROKEN, ASKED, GREY = "#1f5fa8", "#c8511b", "#2f8f5b", "#c02020", "#b9c3cc", "#606870"
MOST_BARS = 60
PLAIN = FuncFormatter(lambda value, _: f"{value:g}")


def svg(figure):
    out = io.BytesIO()
    figure.savefig(out, format="svg", bbox_inches="tight", metadata={"Date": None})
    pyplot.close(figure)
    return out.getvalue()


def bars(study, margins):
    """What each backup waits longer than its primary, the interval and beyond; the least margin comes first."""
    rows = sorted((it for it in margins if it.kind == "row"), key=lambda it: it.strict)[:MOST_BARS]
    figure, axes = pyplot.subplots(figsize=(7.6, 0.6 + 0.235 * len(rows)))
    for at, it in enumerate(rows):
        interval = study.interval(it.backup, it.primary)
        color = KEPT if it.is_kept else BROKEN
        axes.barh(at, min(interval, interval + it.strict_ms), color=ASKED, height=0.62)
        axes.barh(at, it.strict_ms, left=interval, color=color, height=0.62)
        axes.plot([interval, interval], [at - 0.5, at + 0.5], color="black", linewidth=1.3)
        end = interval + max(it.strict_ms, 0)
        axes.annotate(f"{it.strict_ms:+.1f}", (end, at), xytext=(4, 0), textcoords="offset points", va="center", fontsize=8, color=color)
    axes.set_yticks(range(len(rows)), [f"{it.fault}: {it.backup} backs {it.primary}" for it in rows], fontsize=8)
    axes.invert_yaxis()
    axes.margins(x=0.09, y=0.01)
    axes.set_xlim(left=min(0, *axes.get_xlim()) if rows else 0)
    axes.set_xlabel("wait of the backup beyond its primary, ms; black: the interval, figures: the margin", fontsize=9)
    return svg(figure)


def pair_curves(study, settings, backup, primary, margins):
    """The curves of a pair on logarithmic axes, with the currents of its rows. Arrows: what the backup waits at each fault."""
    figure, axes = pyplot.subplots(figsize=(4.4, 3.5))
    rows = [it for it in margins if it.kind == "row" and (it.backup, it.primary) == (backup, primary)]
    currents = [study.amps[it.fault, name] for it in rows for name in (backup, primary)]
    pickups = {name: study.pickup(name, settings[name][0]) for name in (backup, primary)}
    low, high = 0.9 * min(pickups.values()), 1.5 * max(currents)
    times = []
    for name, color, label, style in ((backup, BACKUP, "backup", "-"), (primary, PRIMARY, "primary", "--")):
        start = 1.08 * pickups[name]
        points = [start * (high / start) ** (n / 160) for n in range(161)]
        curve = [curves.seconds(study, name, *settings[name], it) for it in points]
        axes.plot(points, curve, color=color, label=f"{name} ({label})", linewidth=1.6, linestyle=style)
        times += curve
    for it in rows:
        at = {name: (study.amps[it.fault, name], curves.seconds(study, name, *settings[name], study.amps[it.fault, name])) for name in (backup, primary)}
        for name, color in ((backup, BACKUP), (primary, PRIMARY)):
            if at[name][1] is not None:
                axes.axvline(at[name][0], color=color, linewidth=0.6, linestyle=":")
                axes.plot(*at[name], "o", color=color, markersize=4.5, zorder=5)
        if None in (at[backup][1], at[primary][1]):
            continue
        times += [at[backup][1], at[primary][1]]
        amps, color = at[backup][0], KEPT if it.is_kept else BROKEN
        axes.plot([amps, at[primary][0]], [at[primary][1]] * 2, color=GREY, linewidth=0.6, linestyle="--")
        axes.annotate("", (amps, at[backup][1]), (amps, at[primary][1]), arrowprops={"arrowstyle": "<->", "color": color, "linewidth": 1.2, "shrinkA": 0, "shrinkB": 0})
        axes.annotate(it.fault, at[backup], xytext=(0, 7), textcoords="offset points", ha="center", fontsize=8, color=color, bbox={"facecolor": "white", "edgecolor": "none", "alpha": 0.7, "pad": 0.6}, zorder=6)
    axes.set_xscale("log")
    axes.set_yscale("log")
    axes.set_xlim(low, high)
    axes.set_ylim(0.6 * min(times), min(1.2 * max(times), 40 * min(times)))
    ticks = [it * 10**n for n in range(-2, 6) for it in (1, 2, 5)]
    for axis, (first, last) in ((axes.xaxis, axes.get_xlim()), (axes.yaxis, axes.get_ylim())):
        axis.set_ticks([it for it in ticks if first <= it <= last])
        axis.set_major_formatter(PLAIN)
        axis.set_ticks([], minor=True)
    axes.grid(color="#e4e8ec", linewidth=0.6)
    axes.set_xlabel("primary amperes of each relay")
    axes.set_ylabel("seconds")
    axes.legend(fontsize=8, loc="upper right", framealpha=0.9)
    return svg(figure)


def graphviz(output, lines):
    ran = subprocess.run(["neato", *output], input="\n".join(["graph {", *lines, "}"]).encode(), stdout=subprocess.PIPE, stderr=subprocess.PIPE)
    if ran.returncode:
        raise RuntimeError(f"graphviz: {ran.stderr.decode().strip()}")
    return ran.stdout


def bus_places(study):
    """Where graphviz puts the buses, in inches."""
    quoted = ['graph [overlap=scalexy, sep="+40", start=7]', "node [shape=box, width=0.6, height=0.3]"]
    quoted += [f'"{bus}"' for it in study.lines.values() for bus in (it["from"], it["to"])]
    quoted += [f'"{it["from"]}" -- "{it["to"]}" [len=2.9]' for it in study.lines.values()]
    words = [it.split() for it in graphviz(["-Tplain"], quoted).decode().splitlines()]
    return {it[1].strip('"'): (float(it[2]), float(it[3])) for it in words if it[0] == "node"}


def one_line(study):
    """Buses, lines, faults, and the relays at their ends. Graphviz lays out the buses; relays lie near theirs, lines side by side."""
    places = bus_places(study)
    text = ["graph [splines=line, outputorder=edgesfirst, pad=0.15]", 'node [fontname="DejaVu Sans", fontsize=11]', 'edge [color="#606870", penwidth=1.5]']

    def node(name, place, label, style):
        text.append(f'"{name}" [pos="{72 * place[0]:.1f},{72 * place[1]:.1f}", label="{label}", {style}]')

    for bus, place in places.items():
        node(f"bus {bus}", place, bus, 'shape=box, style=filled, fillcolor="#20262c", fontcolor=white, height=0.3, width=0.55, margin=0.06')
    at = {(it["line"], it["bus"]): name for name, it in study.relays.items()}
    beside = {}
    for name, it in study.lines.items():
        beside.setdefault(frozenset((it["from"], it["to"])), []).append(name)
    for name, it in study.lines.items():
        (x, y), (to_x, to_y) = places[it["from"]], places[it["to"]]
        length = ((to_x - x) ** 2 + (to_y - y) ** 2) ** 0.5 or 1
        lines = beside[frozenset((it["from"], it["to"]))]
        aside = 0.75 * (lines.index(name) - (len(lines) - 1) / 2) * (1 if it["from"] < it["to"] else -1)
        along = lambda inches: (x + (to_x - x) * inches / length - (to_y - y) * aside / length, y + (to_y - y) * inches / length + (to_x - x) * aside / length)
        path = [f"bus {it['from']}"]
        faults = [fault for fault, its in study.faults.items() if its["line"] == name]
        shown = faults if len(faults) <= 3 else [*faults[:2], f"{len(faults) - 2} more"]
        for bus, inches in ((it["from"], 0.72), (None, length / 2), (it["to"], length - 0.72)):
            if bus is None:
                label = name + (r"\n✗ " + ", ".join(shown) if faults else "")
                node(f"line {name}", along(inches), label, "shape=box, style=filled, fillcolor=white, color=white, fontsize=9, height=0.2, width=0.2, margin=0.03")
                path.append(f"line {name}")
            elif (name, bus) in at:
                relay = at[name, bus]
                shape = "shape=circle, width=0.4, height=0.4, fixedsize=true" if len(relay) <= 4 else "shape=ellipse, width=0.4, height=0.3, margin=0.02"
                node(f"relay {relay}", along(inches), relay, f'{shape}, style=filled, fillcolor="#dbe8f6", color="#1f5fa8", fontsize=9')
                path.append(f"relay {relay}")
        path.append(f"bus {it['to']}")
        text += [f'"{a}" -- "{b}"' for a, b in zip(path, path[1:])]
    return graphviz(["-n2", "-Tsvg"], text)
