"""Drawing: an SVG put together from boxes, texts and lines."""
import contextlib
from xml.sax.saxutils import escape, quoteattr

INK, THIN, BYTE, SAID, PALE, WHITE = "#1a1a1a", "#4d5a66", "#b9772f", "#7a4a12", "#f2f4f6", "#ffffff"
SMALL, NAME = 15, 17


class Picture:
    """An SVG in the making. Arrowheads are polygons, so that every viewer shows them."""

    def __init__(self, width, height, title, words):
        self.parts = ['<svg xmlns="http://www.w3.org/2000/svg" version="1.1" width="%d" height="%d" viewBox="0 0 %d %d" font-family="sans-serif" role="img">'
                      % (width, height, width, height),
                      "<title>%s</title>" % escape(title), "<desc>%s</desc>" % escape(words),
                      '<rect x="0" y="0" width="%d" height="%d" fill="%s"/>' % (width, height, WHITE)]

    def rectangle(self, x, y, width, height, fill=WHITE, stroke=INK, dashed=False, thick=1.5):
        self.parts.append('<rect x="%g" y="%g" width="%g" height="%g" rx="4" fill="%s" stroke="%s" stroke-width="%g"%s/>'
                          % (x, y, width, height, fill, stroke, thick, ' stroke-dasharray="6 4"' if dashed else ""))

    def text(self, x, y, words, anchor="start", size=SMALL, bold=False, colour=INK):
        self.parts.append('<text x="%g" y="%g" font-size="%d" fill="%s"%s%s>%s</text>'
                          % (x, y, size, colour, "" if anchor == "start" else ' text-anchor="%s"' % anchor,
                             ' font-weight="bold"' if bold else "", escape(words)))

    def box(self, place, name, lines=(), **look):
        """A box with its name and some lines, in its middle."""
        x, y, width, height = place
        self.rectangle(x, y, width, height, **look)
        top = y + height / 2 - (20 * len(lines)) / 2 + 6
        self.text(x + width / 2, top, name, "middle", NAME, True)
        for i, line in enumerate(lines):
            self.text(x + width / 2, top + 20 * (i + 1), line, "middle")

    @contextlib.contextmanager
    def group(self, names):
        """What belongs to these moves, or to the crates at the two ends of a line."""
        self.parts.append("<g class=%s>" % quoteattr(names))
        yield
        self.parts.append("</g>")

    def line(self, points, colour=THIN, thick=1.5, head=9):
        """A line from point to point with an arrowhead at its end."""
        ends = list(points)
        (x0, y0), (x1, y1) = ends[-2], ends[-1]
        right, down = (x1 > x0) - (x1 < x0), (y1 > y0) - (y1 < y0)
        ends[-1] = (x1 - right * head, y1 - down * head) if head else (x1, y1)
        path = "M" + " L".join("%g %g" % point for point in ends)
        self.parts.append('<path d="%s" fill="none" stroke="%s" stroke-width="%g"/>' % (path, colour, thick))
        if head:
            half = head * 0.5 if thick < 4 else head * 0.8
            corners = [(x1, y1), (x1 - right * head - down * half, y1 - down * head - right * half),
                       (x1 - right * head + down * half, y1 - down * head + right * half)]
            self.parts.append('<polygon points="%s" fill="%s"/>' % (" ".join("%g,%g" % corner for corner in corners), colour))

    def byte(self, *points):
        self.line(points, BYTE, 7, 13)

    def step(self, x, y, number):
        self.parts.append('<circle cx="%g" cy="%g" r="11" fill="%s" stroke="%s" stroke-width="2"/>' % (x, y, WHITE, BYTE))
        self.text(x, y + 5, str(number), "middle", SMALL, True)

    def dot(self, x, y):
        self.parts.append('<circle cx="%g" cy="%g" r="6" fill="%s"/>' % (x, y, INK))

    def whole(self):
        return "\n".join(self.parts + ["</svg>"]) + "\n"
