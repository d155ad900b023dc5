"""What the pictures share: lines, boxes and texts as SVG."""
from html import escape

MARGIN = 20
LETTER = 7.9  # the width of a letter of 13 points
SOURCE, WRITE, INK, PALE = "#2b6cb0", "#b7410e", "#222222", "#e8d9c9"


class Drawing:
    """The parts of a picture: lines, over them boxes, and over both the texts, whose white edge keeps them readable."""

    def __init__(self, font="monospace"):
        self.lines, self.boxes, self.texts, self.font = [], [], [], font

    def line(self, x1, y1, x2, y2, colour=INK, width=1.2, arrow=False, dashed=False):
        self.path("M%g,%g L%g,%g" % (x1, y1, x2, y2), colour, width, arrow, dashed)

    def path(self, way, colour=INK, width=1.2, arrow=False, dashed=False):
        more = ' marker-end="url(#a%s)"' % colour[1:] if arrow else ""
        more += ' stroke-dasharray="4 3"' if dashed else ""
        self.lines.append('<path d="%s" fill="none" stroke="%s" stroke-width="%g"%s/>' % (way, colour, width, more))

    def box(self, x, y, width, height, fill, edge="none"):
        self.boxes.append('<rect x="%g" y="%g" width="%g" height="%g" fill="%s" stroke="%s"/>'
                          % (x, y, width, height, fill, edge))

    def number(self, x, y, number, colour):
        """A number in a circle, over the lines."""
        self.boxes.append('<circle cx="%g" cy="%g" r="10" fill="white" stroke="%s"/>' % (x, y, colour))
        self.text(x, y + 4, str(number), colour, "middle", bold=True, size=12)

    def text(self, x, y, words, colour=INK, anchor="start", bold=False, size=13):
        more = ' font-weight="bold"' if bold else ""
        more += ' font-size="%d"' % size if size != 13 else ""
        self.texts.append('<text x="%g" y="%g" fill="%s" text-anchor="%s"%s>%s</text>'
                          % (x, y, colour, anchor, more, escape(words)))

    def svg(self, width, height, label=""):
        heads = "".join('<marker id="a%s" markerWidth="8" markerHeight="8" refX="7" refY="4" orient="auto">'
                        '<path d="M0,1 L7,4 L0,7 z" fill="%s"/></marker>' % (colour[1:], colour)
                        for colour in (SOURCE, WRITE, INK))
        named = ' role="img" aria-label="%s"' % escape(label, quote=True) if label else ""
        return ('<svg xmlns="http://www.w3.org/2000/svg" width="%g" height="%g" viewBox="0 0 %g %g" '
                'font-family="%s" font-size="13"%s>\n<defs>%s</defs>\n'
                '<rect width="100%%" height="100%%" fill="white"/>\n%s\n'
                '<g paint-order="stroke" stroke="white" stroke-width="3" stroke-linejoin="round">\n%s\n</g>\n</svg>'
                % (width, height, width, height, escape(self.font, quote=True), named, heads,
                   "\n".join(self.lines + self.boxes), "\n".join(self.texts)))
