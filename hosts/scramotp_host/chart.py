"""A chart of logins over time, those that were let in above its axis and the others below, as a picture for a page."""
from collections import Counter
from collections.abc import Iterable, Iterator
from datetime import datetime, timedelta
from html import escape
from typing import NamedTuple

from scramotp_host.meanings import KINDS

# The seconds that a bar may stand for, and the most bars.
WIDTHS = [1, 5, 10, 30, 60, 300, 600, 1800, 3600, 10800, 21600, 43200, 86400, 604800, 2592000, 31536000]
MOST_BARS = 60
EPOCH = datetime(1970, 1, 1)
# The picture, in points: its width, half of its height, where its axis is, and the least side of a bar.
WIDE, AXIS, LEAST = 960, 90, 1.5


class Bar(NamedTuple):
    """From when to when it is, or from which login to which; and how many logins there are of each of KINDS."""

    label: str
    counts: Counter[str]

    @property
    def below(self) -> int:
        return self.counts.total() - self.counts["in"]


def bars_over_time(logins: Iterable[tuple[datetime, str]]) -> list[Bar]:
    """The bars of logins, each with its moment and its kind. There is at least one."""
    counts: dict[int, Counter[str]] = {}
    for moment, kind in logins:
        counts.setdefault(int((moment - EPOCH).total_seconds()), Counter())[kind] += 1
    first, last = min(counts), max(counts)
    width = next((it for it in WIDTHS if last // it - first // it < MOST_BARS), (last - first) // (MOST_BARS - 1) + 1)
    bars = [Counter[str]() for _ in range(first // width, last // width + 1)]
    for second, of_second in counts.items():
        bars[second // width - first // width].update(of_second)
    begin, form = EPOCH + timedelta(seconds=first // width * width), "%Y-%m-%d" if width >= 86400 else "%Y-%m-%d %H:%M:%S"
    return [Bar((begin + timedelta(seconds=width * at)).strftime(form), bar) for at, bar in enumerate(bars)]


def bars_in_order(logins: list[str]) -> list[Bar]:
    """The bars of the kinds of logins of which only the order is known: as many logins in each."""
    size = -(-len(logins) // MOST_BARS)
    parts = [(at, logins[at:at + size]) for at in range(0, len(logins), size)]
    return [Bar(f"login {at + 1} to {at + len(it)}" if len(it) > 1 else f"login {at + 1}", Counter(it)) for at, it in parts]


def picture(bars: list[Bar]) -> str:
    """The bars as an SVG, with a title and a description for those who do not see it. There is at least one login in them. It has no
    other text, so it may be drawn as wide and as high as there is room."""
    step, scale = WIDE / len(bars), AXIS / max(max(it.counts["in"], it.below) for it in bars)
    shapes = "".join(shape for at, bar in enumerate(bars) for shape in shapes_of(bar, at * step + 1, max(step - 2, LEAST), scale))
    return (
        f'<svg viewBox="0 0 {WIDE} {2 * AXIS}" preserveAspectRatio="none" role="img" aria-labelledby="chart-title chart-text">'
        f'<title id="chart-title">Logins let in and refused</title><desc id="chart-text">{escape(described(bars))}</desc>'
        f'{shapes}<line x1="0" x2="{WIDE}" y1="{AXIS}" y2="{AXIS}"/></svg>'
    )


def shapes_of(bar: Bar, left: float, wide: float, scale: float) -> Iterator[str]:
    """The rectangles of a bar: one above the axis, and the others under it, one below the other."""
    low = float(AXIS)
    for kind in [it for it in KINDS if bar.counts[it]]:
        height = max(bar.counts[kind] * scale, LEAST)
        top, low = (AXIS - height, low) if kind == "in" else (low, low + height)
        place = f'x="{left:.1f}" y="{top:.1f}" width="{wide:.1f}" height="{height:.1f}"'
        yield f'<rect class="{kind}" {place}><title>{escape(bar.label)}: {bar.counts[kind]} {KINDS[kind]}</title></rect>'


def described(bars: list[Bar]) -> str:
    """The chart in words."""
    sums, worst = sum((it.counts for it in bars), Counter[str]()), max(bars, key=lambda it: it.counts["out"])
    text = f"From {bars[0].label} to {bars[-1].label}: {sums['in']} let in above the axis, and below it {sums['out']} refused"
    text += f" and {sums['unpassed']} with the right password and no code that passed." if sums["unpassed"] else "."
    return text + (f" Most were refused at {worst.label}: {worst.counts['out']}." if worst.counts["out"] else "")
