"""A plot of ratios by size as SVG, with nothing but the standard library."""
import math

COLOURS = ["#1b6ca8", "#d1495b", "#2e933c", "#8d5fd3", "#e08e1b", "#0f8b8d", "#7a4b2a", "#c2409e"]
WIDTH, HEIGHT = 330, 300
LEFT, TOP, RIGHT, BOTTOM = 44, 34, 12, 34
TICKS = [0.1, 0.15, 0.2, 0.3, 0.5, 0.7, 1, 1.5, 2, 3, 5, 7, 10]


def panels(parts):
    """parts: (title, sizes, {name: ratio or None for each size}, the same of an earlier run, a bar to draw or None). The scale is logarithmic: half and
    double are as far from 1. The earlier run is dotted."""
    all_ratios = [1.0, 1.2] + [r for _, _, rows, old, _ in parts for some in (rows, old) for row in some.values() for r in row if r is not None]
    low = max([t for t in TICKS if t <= min(all_ratios)] or TICKS[:1])
    high = min([t for t in TICKS if t >= max(all_ratios)] or TICKS[-1:])
    most = max(len(rows) for _, _, rows, _, _ in parts)
    height = HEIGHT + 16 * ((most + 1) // 2) + 10
    out = [
        f'<svg xmlns="http://www.w3.org/2000/svg" width="{WIDTH * len(parts)}" height="{height}" font-family="sans-serif" font-size="11">',
        f'<rect width="{WIDTH * len(parts)}" height="{height}" fill="white"/>',
    ]
    for i, part in enumerate(parts):
        out.append(f'<g transform="translate({i * WIDTH},0)">')
        out += panel(*part, low, high)
        out.append("</g>")
    return "\n".join(out + ["</svg>"]) + "\n"


def panel(title, sizes, rows, old, bar, low, high):
    right, bottom = WIDTH - RIGHT, HEIGHT - BOTTOM
    x = lambda i: LEFT + 8 + i * (right - LEFT - 16) / (len(sizes) - 1)
    y = lambda r: bottom - math.log(min(max(r, low), high) / low) / math.log(high / low) * (bottom - TOP)
    out = [f'<text x="{LEFT}" y="18" font-size="13" font-weight="bold">{title}</text>']
    for t in [t for t in TICKS if low <= t <= high]:
        out.append(f'<line x1="{LEFT}" y1="{y(t):.1f}" x2="{right}" y2="{y(t):.1f}" stroke="{"#555" if t == 1 else "#ddd"}"/>')
        out.append(f'<text x="{LEFT - 6}" y="{y(t) + 4:.1f}" text-anchor="end">{t}</text>')
    if bar is not None:
        out.append(f'<line x1="{LEFT}" y1="{y(bar):.1f}" x2="{right}" y2="{y(bar):.1f}" stroke="#d00" stroke-dasharray="4 3"/>')
        out.append(f'<text x="{right}" y="{y(bar) - 4:.1f}" text-anchor="end" fill="#d00">bar {bar}</text>')
    for i, s in enumerate(sizes):
        out.append(f'<text x="{x(i):.1f}" y="{bottom + 16}" text-anchor="middle">{s}</text>')
    out.append(f'<text x="{(LEFT + right) / 2:.1f}" y="{bottom + 30}" text-anchor="middle" fill="#555">side of the block</text>')
    for k, (name, row) in enumerate(rows.items()):
        colour = COLOURS[k % len(COLOURS)]
        earlier = [f"{x(i):.1f},{y(r):.1f}" for i, r in enumerate(old.get(name, [])) if r is not None]
        if earlier:
            out.append(f'<polyline fill="none" stroke="{colour}" stroke-width="1.2" stroke-dasharray="2 3" points="{" ".join(earlier)}"/>')
        points = [(x(i), y(r)) for i, r in enumerate(row) if r is not None]
        if points:
            out.append(f'<polyline fill="none" stroke="{colour}" stroke-width="1.8" points="{" ".join(f"{a:.1f},{b:.1f}" for a, b in points)}"/>')
            out += [f'<circle cx="{a:.1f}" cy="{b:.1f}" r="2.6" fill="{colour}"/>' for a, b in points]
        lx, ly = LEFT + (k % 2) * 140, HEIGHT + 10 + 16 * (k // 2)
        out.append(f'<line x1="{lx}" y1="{ly - 4}" x2="{lx + 18}" y2="{ly - 4}" stroke="{colour}" stroke-width="3"/>')
        out.append(f'<text x="{lx + 24}" y="{ly}">{name}</text>')
    return out
