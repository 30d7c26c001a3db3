"""Draws reports: a list of figures as JSON on standard input, an SVG for each. Run by
command/chart.py under a python3 that has matplotlib.

The same figures give the same picture, byte for byte, with one version of matplotlib.
"""

import io
import json
import sys
from datetime import date, timedelta
from itertools import accumulate

import matplotlib

matplotlib.use("svg")
matplotlib.rcParams.update(
    {
        "svg.hashsalt": "pod1",
        "svg.fonttype": "none",  # text stays text
        "font.family": "sans-serif",
        "font.size": 10,
        "axes.spines.top": False,
        "axes.spines.right": False,
        "axes.titlesize": 10,
        "axes.titlelocation": "left",
    }
)
from matplotlib.figure import Figure  # noqa: E402

MILLI = 1_000_000  # nmol in a mmol
LEAST, MOST, LEVEL = "#2b6a4d", "#9cc5ae", "#b3261e"  # dark: at least; light: up to at most
YEARS = {365: 2023, 366: 2024}  # any years of that length
MONTHS = (
    "January", "February", "March", "April", "May", "June", "July", "August", "September",
    "October", "November", "December",
)


def date_of(days, day):
    there = date(YEARS[days], 1, 1) + timedelta(day - 1)
    return f"{there.day} {MONTHS[there.month - 1]}"


def places_for(greatest):
    """Decimals that show the greatest figure well."""
    return 2 if greatest >= 1 else 4


def spread(least, most, places):
    """One number where both are the same to these places."""
    low, high = f"{least:,.{places}f}", f"{most:,.{places}f}"
    return low if low == high else f"{low} to {high}"


def bars(axes, pairs, places):
    """A bar for each month: dark up to its least, light from there to its most."""
    for at, (least, most) in enumerate(pairs):
        axes.bar(at, least, 0.6, color=LEAST)
        axes.bar(at, most - least, 0.6, bottom=least, color=MOST)
        axes.annotate(
            spread(least, most, places),
            (at, most),
            (0, 3),
            textcoords="offset points",
            ha="center",
            va="bottom",
            fontsize=9,
        )
    axes.set_ylim(0, 1.15 * max(most for _, most in pairs) or 1)


def dose_by_month(axes, chart):
    axes.set_title("Dose by month (POD1), mmol m⁻²; dark: at least, light: at most")
    pairs = [(lower / MILLI, upper / MILLI) for _, _, lower, upper, _, _ in chart["months"]]
    bars(axes, pairs, places_for(max(map(max, pairs))))


def running(figures):
    """Sums from the season's start to each month's end."""
    return list(accumulate(figures, initial=0))


def running_total(axes, chart):
    """From 0 at the start to the season's figures at its end."""
    axes.set_title("Dose from the first day to each month's end, mmol m⁻²")
    lower, upper = (
        [total / MILLI for total in running(month[at] for month in chart["months"])]
        for at in (2, 3)
    )
    ends = [at - 0.5 for at in range(len(lower))]
    axes.fill_between(ends, lower, upper, color=MOST, linewidth=0)
    axes.plot(ends, upper, color=MOST, linewidth=1, marker="o", markersize=4)
    axes.plot(ends, lower, color=LEAST, linewidth=1, marker="o", markersize=4)
    level = chart["level"] / 100
    axes.axhline(level, color=LEVEL, linewidth=1.2, linestyle="--")
    axes.annotate(
        f"critical level {level:g}",
        (ends[0], level),
        (2, 3),
        textcoords="offset points",
        color=LEVEL,
        va="bottom",
        fontsize=9,
    )
    last = spread(lower[-1], upper[-1], places_for(upper[-1]))
    axes.annotate(
        last,
        (ends[-1], upper[-1]),
        (-4, 5),
        textcoords="offset points",
        ha="right",
        va="bottom",
        fontsize=9,
    )
    axes.set_ylim(0, 1.2 * max(upper[-1], level))


def aot40_by_month(axes, chart):
    axes.set_title("AOT40 by month, ppb h; dark: at least, light: at most")
    bars(axes, [(least / 10, most / 10) for _, _, _, _, least, most in chart["months"]], 0)
    axes.yaxis.set_major_formatter("{x:,.0f}")


def heading(chart):
    """Tree, period and verdict."""
    hours, counted, lower, upper, *_ = chart["season"]
    first, last = chart["first"], chart["last"]
    dates = f"{date_of(chart['days'], first)} to {date_of(chart['days'], last)}"
    dose = spread(lower / MILLI, upper / MILLI, places_for(upper / MILLI))
    name = chart["tree"][0].upper() + chart["tree"][1:]
    verdict = (
        f"{chart['verdict']}: {dose} mmol m⁻² against a critical level of {chart['level'] / 100:g}"
    )
    return (
        f"{name}, days {first} to {last} ({dates})\n{verdict}\n{counted:,} of {hours:,} hours "
        "counted"
    )


def picture(chart):
    figure = Figure(figsize=(7.5, 8.5), layout="constrained")
    figure.suptitle(heading(chart), fontsize=12, x=0.01, ha="left")
    months = [MONTHS[month[0] - 1][:3] for month in chart["months"]]
    for axes, panel in zip(figure.subplots(3, 1), (dose_by_month, running_total, aot40_by_month)):
        panel(axes, chart)
        axes.set_xlim(-0.55, len(months) - 0.45)
        axes.set_xticks(range(len(months)), months)
    svg = io.BytesIO()
    figure.savefig(svg, format="svg", metadata={"Date": None, "Creator": None})
    return svg.getvalue()


def main():
    sys.stdout.reconfigure(encoding="utf-8", errors="surrogateescape")
    status = 0
    for chart in json.load(sys.stdin):
        try:
            with open(chart["picture"], "wb") as file:
                file.write(picture(chart))
            print(chart["picture"], flush=True)
        except OSError as error:
            print(f"pod1: {chart['picture']}: cannot be written: {error.strerror}", file=sys.stderr)
            status = 2
    return status


if __name__ == "__main__":
    sys.exit(main())
