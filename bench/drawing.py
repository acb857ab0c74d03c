"""What the plots share: text, a line through its points, its sample in a legend, and the picture around them, as SVG."""


def text(x, y, words, anchor="start", size=13, fill="#222222", extra=""):
    return f'<text x="{x:.1f}" y="{y:.1f}" text-anchor="{anchor}" font-size="{size}" fill="{fill}"{extra}>{words}</text>'


def turned_text(x, y, words, size=13):
    """Upwards, beside a vertical axis."""
    return text(x, y, words, "middle", size, extra=f' transform="rotate(-90 {x} {y:.0f})"')


def dashes(dash):
    return f' stroke-dasharray="{dash}"' if dash else ""


def dot(x, y, colour, dash, radius):
    """Of a line: filled where the line is whole."""
    fill = "#ffffff" if dash else colour
    return f'<circle cx="{x:.1f}" cy="{y:.1f}" r="{radius}" fill="{fill}" stroke="{colour}" stroke-width="1.5"/>'


def line(axes, points, colour, dash, radius=3.5):
    """A line through points that the axes place."""
    path = " ".join(f"{axes.x(x):.1f},{axes.y(y):.1f}" for x, y in points)
    parts = [f'<polyline points="{path}" fill="none" stroke="{colour}" stroke-width="2"{dashes(dash)}/>']
    return parts + [dot(axes.x(x), axes.y(y), colour, dash, radius) for x, y in points]


def sample(x, dash, words, colour="#222222", radius=0):
    """What a kind of line stands for, below the title."""
    dots = [dot(x + 15, 40, colour, dash, radius)] if radius else []
    return [
        f'<line x1="{x}" y1="40" x2="{x + 30}" y2="40" stroke="{colour}" stroke-width="2"{dashes(dash)}/>',
        *dots,
        text(x + 37, 44, words, fill=colour),
    ]


def picture(width, height, parts):
    frame = f'<svg xmlns="http://www.w3.org/2000/svg" width="{width}" height="{height}" viewBox="0 0 {width} {height}" font-family="Helvetica, Arial, sans-serif">'
    background = f'<rect width="{width}" height="{height}" fill="#ffffff"/>'
    return "\n".join([frame, background, *parts, "</svg>"]) + "\n"
