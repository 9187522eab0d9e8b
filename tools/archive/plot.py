"""The plot of an archive's page: how many sessions took how many steps, as a histogram in SVG."""

import math

# parts of a decade that each have a bar
PARTS = 4
# the ends, in the order in which they lie on each other; each has a pattern of its own beside its colour
ENDS = "Halted", "Exited", "Running", "Quota", "Illegal", "CountEnd"
PATTERNS = {
    "Halted": "",
    "Exited": '<path d="M0 4h8" class="line"/>',
    "Running": '<path d="M-2 2l4-4M0 8l8-8M6 10l4-4" class="line"/>',
    "Quota": '<circle cx="4" cy="4" r="2" class="dot"/>',
    "Illegal": '<path d="M0 0l8 8M8 0l-8 8" class="line"/>',
    "CountEnd": '<path d="M4 0v8" class="line"/>',
}
MARGIN_LEFT, MARGIN_RIGHT, MARGIN_TOP, MARGIN_BOTTOM = 58, 16, 12, 52


def pattern(end, suffix):
    back = f'<rect width="8" height="8" class="end-{end}"/>'
    return f'<pattern id="{end}-{suffix}" width="8" height="8" patternUnits="userSpaceOnUse">{back}{PATTERNS[end]}</pattern>'


def swatch(end):
    """A mark of the legend."""
    return f'<svg class="swatch" width="16" height="16" aria-hidden="true"><defs>{pattern(end, "legend")}</defs><rect width="16" height="16" fill="url(#{end}-legend)"/></svg>'


def bar_of(count):
    """The number of the bar that a count of steps belongs to; 0 stands with 1."""
    return math.floor(PARTS * math.log10(max(count, 1)) + 1e-9)


def tick_step(most):
    """A distance of ticks of 1, 2 or 5 and zeros, of which at most six are needed."""
    size = 10 ** max(0, math.floor(math.log10(max(most, 1) / 6)))
    return next(size * it for it in (1, 2, 5, 10, 20) if size * it * 6 >= most)


def power(decade):
    """A tick's text: 10, 100, 1,000, .., 1 M, .., 1 T, which is as many steps as a session may have."""
    return f"{10**decade:,}" if decade < 6 else f"{10 ** (decade % 3)} {'MGTPE'[decade // 3 - 2]}"


class Scale:
    """Where steps and numbers of sessions lie."""

    def __init__(self, bars, width, height):
        self.first = min(bars) // PARTS
        self.last = max(bars) // PARTS + 1
        self.step = tick_step(max(sum(it.values()) for it in bars.values()))
        self.top = self.step * math.ceil(max(sum(it.values()) for it in bars.values()) / self.step)
        self.width, self.height = width, height
        self.right, self.bottom = width - MARGIN_RIGHT, height - MARGIN_BOTTOM

    def x(self, decades):
        return MARGIN_LEFT + (decades - self.first) / (self.last - self.first) * (self.right - MARGIN_LEFT)

    def y(self, sessions):
        return self.bottom - sessions / self.top * (self.bottom - MARGIN_TOP)


def axes(scale):
    for number in range(0, scale.top + 1, scale.step):
        y = scale.y(number)
        yield f'<path d="M{MARGIN_LEFT} {y:.1f}H{scale.right}" class="grid"/><text x="{MARGIN_LEFT - 8}" y="{y + 4:.1f}" text-anchor="end">{number:,}</text>'
    every = 1 if scale.width > 500 or scale.last - scale.first <= 4 else 2
    for decade in range(scale.first, scale.last + 1, every):
        x = scale.x(decade)
        anchor = "end" if decade == scale.last else "middle"
        yield f'<path d="M{x:.1f} {scale.bottom}v6" class="axis"/><text x="{x:.1f}" y="{scale.bottom + 20}" text-anchor="{anchor}">{power(decade)}</text>'
    yield f'<path d="M{MARGIN_LEFT} {scale.bottom}H{scale.right}" class="axis"/>'
    middle, half = (MARGIN_LEFT + scale.right) / 2, (MARGIN_TOP + scale.bottom) / 2
    yield f'<text x="{middle:.1f}" y="{scale.height - 8}" text-anchor="middle" class="title">steps of a session (logarithmic)</text>'
    yield f'<text transform="translate(14 {half:.1f}) rotate(-90)" text-anchor="middle" class="title">sessions</text>'


def columns(scale, bars, suffix):
    for part, numbers in sorted(bars.items()):
        left, right, below = scale.x(part / PARTS) + 1, scale.x((part + 1) / PARTS) - 1, 0
        told = f"{10 ** (part / PARTS):,.0f} to {10 ** ((part + 1) / PARTS):,.0f} steps: " + ", ".join(f"{numbers[end]:,} {end}" for end in ENDS if numbers[end])
        rects = []
        for end in ENDS:
            if numbers[end]:
                top, bottom = scale.y(below + numbers[end]), scale.y(below)
                rects.append(f'<rect x="{left:.1f}" y="{top:.1f}" width="{right - left:.1f}" height="{bottom - top:.1f}" fill="url(#{end}-{suffix})"/>')
                below += numbers[end]
        yield f"<g><title>{told}</title>{''.join(rects)}</g>"


def histogram(bars, width, height, suffix):
    """The SVG of a histogram of this size, of how many sessions of each end a bar has; `suffix` tells its patterns from another's. Without a bar it is empty."""
    if not bars:
        return ""
    scale = Scale(bars, width, height)
    used = [end for end in ENDS if any(it[end] for it in bars.values())]
    definitions = f"<defs>{''.join(pattern(end, suffix) for end in used)}</defs>"
    label = f"Histogram of {sum(sum(it.values()) for it in bars.values()):,} sessions by their steps"
    body = "".join([*axes(scale), *columns(scale, bars, suffix)])
    return f'<svg class="{suffix}" viewBox="0 0 {width} {height}" role="img" aria-label="{label}">{definitions}{body}</svg>'
