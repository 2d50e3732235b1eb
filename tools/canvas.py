"""The elements of an SVG."""
from html import escape

INK = '#222222'
FAINT = '#888888'
RED = '#c8102e'


class Canvas:
    """Gathers the elements of an SVG."""

    def __init__(self):
        self.elements = []

    def add(self, form, *values):
        """Adds an element; texts in `values` are escaped already."""
        self.elements.append(form % values)

    def rectangle(self, left, top, width, height, fill, border=None, thick=1, title=None, dashed=False):
        """A rectangle with a border or without; a title shows where a pointer rests."""
        dashes = ' stroke-dasharray="4 2"' if dashed else ''
        line = ' stroke="%s" stroke-width="%g"%s' % (border, thick, dashes) if border else ''
        end = '><title>%s</title></rect>' % escape(title) if title else '/>'
        self.add('<rect x="%.1f" y="%.1f" width="%.1f" height="%.1f" rx="%d" fill="%s"%s%s', left, top, width, height,
                 2 if border else 0, fill, line, end)

    def line(self, left, top, right, bottom, colour, thick=1, dashed=False):
        """A straight line."""
        dashes = ' stroke-dasharray="3 2"' if dashed else ''
        self.add('<line x1="%.1f" y1="%.1f" x2="%.1f" y2="%.1f" stroke="%s" stroke-width="%g"%s/>', left, top, right, bottom,
                 colour, thick, dashes)

    def cross(self, middle, centre, colour=RED, reach=3):
        """A small cross."""
        self.line(middle - reach, centre - reach, middle + reach, centre + reach, colour, 1.8)
        self.line(middle - reach, centre + reach, middle + reach, centre - reach, colour, 1.8)

    def dot(self, middle, centre, colour=RED):
        """A small dot."""
        self.add('<circle cx="%.1f" cy="%.1f" r="3" fill="%s"/>', middle, centre, colour)

    def polygon(self, points, fill=INK):
        """A filled shape."""
        self.add('<polygon points="%s" fill="%s"/>', ' '.join('%.1f,%.1f' % point for point in points), fill)

    def text(self, left, base, text, size=11, colour=INK, bold=False, label=True):
        """A text whose base line begins at that point; a label has letters of one width."""
        family = 'DejaVu Sans Mono, monospace' if label else 'DejaVu Sans, Verdana, sans-serif'
        weight = ' font-weight="bold"' if bold else ''
        self.add('<text x="%.1f" y="%.1f" font-family="%s" font-size="%d" fill="%s"%s>%s</text>', left, base, family, size,
                 colour, weight, escape(text))

    def svg(self, width, height, title, description):
        """The whole picture, with a title and a description for those who do not see it."""
        head = ('<svg xmlns="http://www.w3.org/2000/svg" width="%d" height="%d" viewBox="0 0 %d %d" role="img">'
                % (width, height, width, height))
        words = '<title>%s</title>\n<desc>%s</desc>' % (escape(title), escape(description))
        return '\n'.join([head, words, '<rect width="100%" height="100%" fill="#ffffff"/>', *self.elements, '</svg>', ''])
