"""Data frames of pandas and figures of matplotlib, which the package does not need otherwise."""

from __future__ import annotations

from collections import Counter
from collections.abc import Iterable, Mapping, Sequence
from typing import TYPE_CHECKING, Any

from fbsim.extras import needed
from fbsim.faults import Fault, InputFault

if TYPE_CHECKING:
    from matplotlib.figure import Figure
    from pandas import DataFrame

    from fbsim.latencies import Latencies
    from fbsim.trace import Line, Signal, States
    from fbsim.variant import Variant


def column(pandas: Any, values: list[Any]) -> Any:
    """Returns the values of a variable as a column whose missing values are NA: of truth values, else of numbers."""
    given = [it for it in values if it is not None]
    if all(isinstance(it, bool) for it in given):
        return pandas.array(values, dtype="boolean")
    if not any(isinstance(it, bool) for it in given) and all(-(2**63) <= it < 2**63 for it in given):
        return pandas.array(values, dtype="Int64")
    return pandas.array(values, dtype=object)


def frame_of_lines(lines: Iterable[Line]) -> DataFrame:
    """Returns a frame with the columns tick, resource, sign, instance, event, and one for each variable."""
    pandas = needed("pandas", "frame")
    parts: dict[str, list[Any]] = {name: [] for name in ("tick", "resource", "sign", "instance", "event")}
    variables: dict[str, list[Any]] = {}
    count = 0
    for count, line in enumerate(lines, 1):
        for values, it in zip(parts.values(), line):
            values.append(it)
        for name, value in line.values.items():
            values = variables.setdefault(name, [])
            values.extend([None] * (count - 1 - len(values)))
            values.append(value)
    for values in variables.values():
        values.extend([None] * (count - len(values)))
    parts["tick"] = pandas.array(parts["tick"], dtype="int64")
    return pandas.DataFrame(parts | {name: column(pandas, values) for name, values in variables.items()})


def frame_of_sweep(rows: Sequence[Variant]) -> DataFrame:
    """Returns a frame with the parameters, the end, the stop, the verdict of each rule, and statistics of latencies."""
    pandas = needed("pandas", "frame")
    found = []
    for it in rows:
        row: list[tuple[str, Any]] = [*it.parameters.items(), ("end", it.end), ("stop", it.stop and str(it.stop))]
        row += [(verdict.rule, verdict.verdict) for verdict in it.report.verdicts]
        for name, given in it.latencies.items():
            row += [(f"{name}.count", given.count), (f"{name}.waiting", given.waiting)]
            for statistic in ("least", "median", "most"):
                row.append((f"{name}.{statistic}", getattr(given, statistic) if given.count else None))
        row += [("fault", it.fault and str(it.fault))] * any(it.fault for it in rows)
        found.append(dict(row))
        for name, count in Counter(name for name, _ in row).items():
            if count > 1:
                raise InputFault(f"two columns of the frame are {name!r}: give the rule or the latencies another name")
    return pandas.DataFrame(found)


# One look for all figures, that of the page of a run: colours of numbers and of bands, which differ in grey too.
LINE, BANDS = "#1f5fae", ("#cfe3fb", "#fbe3c4", "#d5efdb", "#e8dcf5", "#f6d3d0", "#e3e6ea")


def figure(height: float, title: str) -> Figure:
    """Returns an empty figure with a title."""
    made: Figure = needed("matplotlib.figure", "plot").Figure(figsize=(8.0, height), layout="constrained")
    made.suptitle(title, x=0.01, ha="left", fontsize="medium", fontweight="bold")
    return made


def styled(axes: Any) -> Any:
    """Returns axes without the frame that nothing needs, with a light grid below all else."""
    axes.spines[["top", "right"]].set_visible(False)
    axes.grid(True, alpha=0.3)
    axes.set_axisbelow(True)
    return axes


def steps(signals: Mapping[str, Signal], states: Mapping[str, States], end: int | None, title: str) -> Figure:
    """Returns a figure that draws each signal as steps over ticks, from its first value on, and states as bands."""
    if not signals and not states:
        raise Fault("there is nothing to draw: name at least one signal, as GATE.TAKEN")
    count = len(signals) + len(states)
    made = figure(0.9 + 1.1 * count, title)
    rows = made.subplots(count, 1, sharex=True, squeeze=False)[:, 0]
    for axes, name in zip(rows, (*signals, *states)):
        styled(axes).set_ylabel(name, rotation=0, ha="right", va="center")
    for axes, (ticks, names) in zip(rows[len(signals):], states.values()):
        bands(axes, [*ticks, max(end or 0, ticks[-1])], names)
    for axes, (ticks, values) in zip(rows, signals.values()):
        last = [max(end, ticks[-1])] if ticks and end is not None else []
        axes.step(ticks + last, [int(it) for it in values + values[-1:] * len(last)], where="post", color=LINE)
        if values and all(isinstance(it, bool) for it in values):
            axes.set_yticks([0, 1], ["FALSE", "TRUE"])
            axes.set_ylim(-0.2, 1.2)
        else:
            axes.yaxis.get_major_locator().set_params(integer=True)
    rows[-1].set_xlabel("tick [ms]")
    made.align_ylabels()
    return made


def bands(axes: Any, ticks: Sequence[int], names: Sequence[str]) -> None:
    """Draws states as bands of colours, with a legend. `ticks` has the end of the last one too."""
    for number, name in enumerate(dict.fromkeys(names)):
        those = [(tick, end - tick) for tick, end, it in zip(ticks, ticks[1:], names) if it == name]
        axes.broken_barh(those, (0.15, 0.7), facecolors=BANDS[number % len(BANDS)], edgecolor="white", label=name)
    axes.set(yticks=[], ylim=(0, 1))
    axes.legend(loc="center left", bbox_to_anchor=(1, 0.5), fontsize="x-small", frameon=False)


def bars(latencies: Latencies, width: int | None) -> Figure:
    """Returns a figure with the histogram of latencies."""
    made = figure(3.4, f"{latencies.count} latencies: least {latencies.least}, most {latencies.most} ms")
    axes, rows = styled(made.subplots()), latencies.histogram(width)
    sizes = [to - low for low, to, _ in rows]
    axes.bar([low for low, _, _ in rows], [it for _, _, it in rows], sizes, align="edge", color=LINE, edgecolor="white")
    axes.set(xlabel="latency [ms]", ylabel="count")
    return made


MARKS = {
    "all rules hold": "o", "there are no rules": ".", "no rule applied": "v", "a rule is broken": "x",
    "the run stopped": "s", "it failed": "^"
}


# The ground of a variant in a map.
GROUNDS = {
    "all rules hold": "#d5efdb", "a rule is broken": "#f6b8b2", "the run stopped": "#fbe3c4", "it failed": "#e8dcf5"
}


def points(frame: DataFrame, states: Sequence[str], x: str, y: str, colour: str | None, is_map: bool) -> Figure:
    """Returns a figure of two columns of a frame, with a mark for each state of a row.

    In a map, of two parameters, each row has a ground: the colour of its state, or of its value in the column `colour`.
    """
    for it in (x, y, *([colour] if colour else [])):
        if it not in frame.columns:
            raise InputFault(f"there is no column {it!r}; the columns are {', '.join(map(str, frame.columns))}")
    made = figure(4.4, f"{len(frame)} variants: {states.count('all rules hold')} hold all rules")
    axes = styled(made.subplots())
    xs, ys = ([it if isinstance(it, (int, float)) else str(it) for it in frame[name]] for name in (x, y))
    if is_map and not any(isinstance(it, str) for it in (*xs, *ys)):
        drawn = ground(axes, xs, ys)
        if colour is None:
            drawn.set_facecolor([GROUNDS.get(it, "#ffffff") for it in states])
        else:
            drawn.set(array=[float("nan") if it is None else it for it in frame[colour]], cmap="viridis_r", alpha=0.55)
            made.colorbar(drawn, ax=axes, label=f"{colour} [ms]")
    for label, mark in MARKS.items():
        rows = [number for number, it in enumerate(states) if it == label]
        if rows:
            those = [[of[it] for it in rows] for of in (xs, ys)]
            axes.plot(*those, mark, label=label, color="#1a1f27", markersize=5)
    axes.set(xlabel=x, ylabel=y)
    axes.legend(loc="lower left", bbox_to_anchor=(0, 1), ncols=len(MARKS), fontsize="x-small", frameon=False)
    return made


def ground(axes: Any, xs: Sequence[Any], ys: Sequence[Any]) -> Any:
    """Draws a cell for each place, which ends halfway to its neighbours, and returns them all, without colours."""
    def sides(of: Sequence[float]) -> dict[float, tuple[float, float]]:
        them = sorted({*of})
        gaps = [b - a for a, b in zip(them, them[1:])] or [1.0]
        return {it: (it - [gaps[0], *gaps][k] / 2, it + [*gaps, gaps[-1]][k] / 2) for k, it in enumerate(them)}

    rectangle = needed("matplotlib.patches", "plot").Rectangle
    across, up, cells = sides(xs), sides(ys), []
    for x, y in zip(xs, ys):
        (left, right), (low, high) = across[x], up[y]
        cells.append(rectangle((left, low), right - left, high - low))
    return axes.add_collection(needed("matplotlib.collections", "plot").PatchCollection(cells, zorder=0))
