"""The chart of tools/wear as SVG: a frame for the crate and one for the port, each with the free figure, what can be placed, and what was refused."""

SIDES, TOP, HIGH, WIDE, LEFTS = (1120, 560), 96, 280, 400, (84, 648)
STRIP, LOW = 416, 56  # the lower strip's y, and its height
ATLAS, LABEL, REFUSED = 65_536, 1_024, 2_000  # pixels of the atlas and of a label; the strip's end
FREE, PLACED, LOST, BAR, INK, GRID = "#5b9bd5", "#9a3412", "#fde3d3", "#b91c1c", "#222222", "#d4d4d4"


def text(x, y, words, anchor="middle", size=13, more=""):
    return f'<text x="{x:g}" y="{y:g}" text-anchor="{anchor}" font-size="{size}" fill="{INK}"{more}>{words}</text>'


def line(x1, y1, x2, y2, colour=GRID, wide=1):
    return f'<line x1="{x1:g}" y1="{y1:g}" x2="{x2:g}" y2="{y2:g}" stroke="{colour}" stroke-width="{wide}"/>'


def points(pairs):
    return " ".join(f"{x:g},{y:g}" for x, y in pairs)


def turned(x, y, words):
    return text(x, y, words, more=f' transform="rotate(-90 {x:g} {y:g})"')


def across(left, n, count):
    """x of the end of quarter n, of so many."""
    return left + WIDE * n / count


def down(pixels):
    return TOP + HIGH * (1 - pixels / ATLAS)


def fallen(refused):
    return STRIP + LOW * (1 - refused / REFUSED)


def grid(left, count):
    """Lines and numbers: pixels at the left and labels at the right of a frame, refusals in the strip, years below both."""
    drawn = []
    for labels in range(0, 65, 16):
        y = down(labels * LABEL)
        drawn += [line(left, y, left + WIDE, y), text(left - 8, y + 4, f"{labels * LABEL:,}", "end", 12), text(left + WIDE + 8, y + 4, labels, "start", 12)]
    for refused in range(0, REFUSED + 1, 1_000):
        y = fallen(refused)
        drawn += [line(left, y, left + WIDE, y), text(left - 8, y + 4, f"{refused:,}", "end", 12)]
    for n in range(0, count + 1, 4):
        x = across(left, n, count)
        drawn += [line(x, TOP, x, TOP + HIGH), line(x, STRIP, x, STRIP + LOW), text(x, STRIP + LOW + 17, n // 4, size=12)]
    return drawn


def named(left, title, refused):
    middle, between = left + WIDE / 2, TOP + HIGH / 2
    return [
        text(middle, TOP - 14, title, size=15, more=' font-weight="bold"'),
        turned(left - 64, between, "pixels"),
        turned(left + WIDE + 44, between, "labels of 32 by 32"),
        text(left, STRIP - 10, f"labels refused in each quarter, of 4,000{'' if refused else ': none'}", "start", 12),
        text(middle, STRIP + LOW + 36, "years", size=12),
    ]


def curves(left, quarters):
    """The free figure is drawn broad and what can be placed thin on it, so that both are seen where they are one."""
    count = len(quarters)
    free = [(across(left, n, count), down(q.free)) for n, q in enumerate(quarters, 1)]
    placed = [(across(left, n, count), down(q.more * LABEL)) for n, q in enumerate(quarters, 1)]
    bars = [(across(left, n - 1, count), fallen(q.refused)) for n, q in enumerate(quarters, 1) if q.refused]
    return [
        f'<polygon points="{points(free + placed[::-1])}" fill="{LOST}"/>',
        f'<polyline points="{points(free)}" fill="none" stroke="{FREE}" stroke-width="7" stroke-linejoin="round"/>',
        f'<polyline points="{points(placed)}" fill="none" stroke="{PLACED}" stroke-width="2" stroke-linejoin="round"/>',
        *(f'<circle cx="{x:g}" cy="{y:g}" r="2.5" fill="{PLACED}"/>' for x, y in placed),
        *(f'<rect x="{x + 1:g}" y="{y:g}" width="{WIDE / count - 2:g}" height="{STRIP + LOW - y:g}" fill="{BAR}"/>' for x, y in bars),
    ]


def legend(y):
    drawn, x = [], 84
    for colour, wide, words, room in (
        (FREE, 7, "the free figure", 172),
        (PLACED, 2, "what can be placed beside what is held", 336),
        (LOST, 14, "free, but no label can be placed there", 324),
        (BAR, 14, "labels refused", 0),
    ):
        drawn += [line(x, y - 4, x + 26, y - 4, colour, wide), text(x + 34, y, words, "start")]
        x += room
    return drawn


def chart(frames):
    """The frames are pairs of a title and its quarters, from left to right."""
    wide, high = SIDES
    drawn = [
        f'<svg xmlns="http://www.w3.org/2000/svg" viewBox="0 0 {wide} {high}" font-family="Helvetica, Arial, sans-serif">',
        "<title>Free, and what can be placed, over ten years: the crate and the port</title>",
        f'<rect width="{wide}" height="{high}" fill="#ffffff"/>',
        text(wide / 2, 32, "Ten years of 32 by 32 labels on a 256 by 256 atlas: ten held at a time, 4,000 a quarter", size=18, more=' font-weight="bold"'),
        text(wide / 2, 54, "at each quarter's end: what is free, and how much of it labels can have"),
    ]
    for left, (title, quarters) in zip(LEFTS, frames):
        drawn += grid(left, len(quarters)) + curves(left, quarters) + named(left, title, sum(q.refused for q in quarters))
    return "\n".join([*drawn, *legend(high - 16), "</svg>"]) + "\n"
