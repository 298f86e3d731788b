"""A picture of some curves over the whole numbers from 1 on, as a text in SVG."""

WIDTH, HEIGHT = 640, 400
LEFT, RIGHT, TOP, BOTTOM = 50, 190, 20, 45
COLOURS = ["#1b6ca8", "#c0392b", "#27864a", "#8e44ad", "#b9770e", "#555555"]
FONT = 'font-family="sans-serif" font-size="12"'


class Plane:
    """Places on the picture: numbers from 1 to `most_x`, and amounts from 0 to `most_y`."""

    def __init__(self, most_x, most_y):
        self.most_x, self.most_y = most_x, most_y

    def x(self, number):
        return LEFT + (WIDTH - LEFT - RIGHT) * (number - 1) / max(1, self.most_x - 1)

    def y(self, amount):
        return HEIGHT - BOTTOM - (HEIGHT - TOP - BOTTOM) * amount / self.most_y

    def line(self, points, style):
        places = " ".join(f"{self.x(x):.1f},{self.y(y):.1f}" for x, y in points)
        return f'<polyline fill="none" {style} points="{places}"/>'


def text(x, y, words, how=""):
    return f'<text x="{x:.1f}" y="{y:.1f}" {FONT} {how}>{words}</text>'


def grid(plane):
    """Yields a line and a number for each step of both axes."""
    for amount in range(int(plane.most_y) + 1):
        yield plane.line([(1, amount), (plane.most_x, amount)], 'stroke="#dddddd"')
        yield text(LEFT - 8, plane.y(amount) + 4, amount, 'text-anchor="end"')
    for number in range(1, plane.most_x + 1):
        yield plane.line([(number, 0), (number, plane.most_y)], 'stroke="#dddddd"')
        yield text(plane.x(number), HEIGHT - BOTTOM + 18, number, 'text-anchor="middle"')


def curve(plane, name, amounts, place, colour):
    """Yields a curve with a mark at each number, and its line of the legend at this place."""
    points = list(enumerate(amounts, 1))
    yield plane.line(points, f'stroke="{colour}" stroke-width="2"')
    for x, y in points:
        yield f'<circle cx="{plane.x(x):.1f}" cy="{plane.y(y):.1f}" r="3" fill="{colour}"/>'
    at = WIDTH - RIGHT + 20
    yield f'<circle cx="{at}" cy="{place - 4}" r="4" fill="{colour}"/>'
    yield text(at + 10, place, name)


def picture(curves, below, beside):
    """Returns the picture of some named curves, with the names of its axes."""
    numbers = max(len(amounts) for amounts in curves.values())
    most = max(max(amounts) for amounts in curves.values())
    plane = Plane(numbers, int(most) + 1)
    parts = [f'<rect width="{WIDTH}" height="{HEIGHT}" fill="white"/>', *grid(plane)]
    for count, (name, amounts) in enumerate(curves.items()):
        colour = COLOURS[count % len(COLOURS)]
        parts += curve(plane, name, amounts, TOP + 20 * (count + 1), colour)
    middle = (LEFT + WIDTH - RIGHT) / 2
    parts.append(text(middle, HEIGHT - 8, below, 'text-anchor="middle"'))
    turned = f'text-anchor="middle" transform="rotate(-90 14 {HEIGHT / 2})"'
    parts.append(text(14, HEIGHT / 2, beside, turned))
    head = f'<svg xmlns="http://www.w3.org/2000/svg" width="{WIDTH}" height="{HEIGHT}">'
    return "\n".join([head, *parts, "</svg>"]) + "\n"
