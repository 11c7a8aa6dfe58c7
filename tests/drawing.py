"""What the pictures in docs/ are drawn with: SVG of boxes, texts, arrows."""

INK, FAINT, PAPER = "#1d2733", "#5a6672", "#ffffff"
BANDS = ("#eef1f4", "#f7f8fa")
# Boxes: how they are filled, and their borders.
BLUE_BOX = ("#d9e8f6", "#2f679e")
PURPLE_BOX = ("#eadcf3", "#77479b")
AMBER_BOX = ("#fdeac0", "#a87508")
GREEN_BOX = ("#dcefdb", "#3f7f43")
GREY_BOX = (BANDS[0], FAINT)
# Arrows, and texts beside them.
BLUE, PURPLE, GREEN, BROWN = "#2f5d8a", "#8a62aa", "#3f7f43", "#a8590b"
DASH = ' stroke-dasharray="5 3"'


class Unfit(Exception):
    """It can't be drawn so."""


def width_of(text, size, is_bold=False):
    """At least what a browser takes, in any usual font without serifs."""
    ems = 0
    for sign in text:
        if sign in "ijlI'|":
            ems += 0.34
        elif sign in " .,:;!/()[]ftr-":
            ems += 0.42
        elif sign in "mwMW%@&#+=<>~":
            ems += 1
        elif sign.isupper():
            ems += 0.79
        else:
            ems += 0.64
    return ems * size * (1.18 if is_bold else 1)


def escaped(text):
    return text.replace("&", "&amp;").replace("<", "&lt;").replace(">",
                                                                   "&gt;")


def towards(start, end, length):
    """The point so far from `start`, or half way if `end` is near."""
    across, down = end[0] - start[0], end[1] - start[1]
    way = abs(across) + abs(down)
    if way == 0:
        return start
    share = min(length, way / 2) / way
    return start[0] + across * share, start[1] + down * share


class Drawing:
    def __init__(self, title, source):
        """`source` is the file to mend where a text is too long."""
        self.title = title
        self.source = source
        self.lines = []

    def add(self, line, *given):
        self.lines.append(line % given)

    def rect(self, x, y, width, high, fill, stroke=None, radius=0,
             dashed=False):
        self.add('<rect x="%g" y="%g" width="%g" height="%g"%s fill="%s"%s%s/>',
                 x, y, width, high, ' rx="%g"' % radius if radius else "",
                 fill, ' stroke="%s"' % stroke if stroke else "",
                 DASH if dashed else "")

    def text(self, x, y, text, size, room, fill=INK, bold=False,
             anchor="middle"):
        if width_of(text, size, bold) > room:
            raise Unfit("%s: '%s' is too long: %d pixels of %d" % (
                self.source, text, width_of(text, size, bold), room))
        self.add('<text x="%g" y="%g" font-size="%g" fill="%s"%s%s>%s</text>',
                 x, y, size, fill,
                 ' text-anchor="%s"' % anchor if anchor != "start" else "",
                 ' font-weight="bold"' if bold else "", escaped(text))

    def way(self, points, colour, dashed=False, width=1.4, head=True):
        """A line with round corners, and a head at its end."""
        words = ["M%g %g" % points[0]]
        for before, corner, behind in zip(points, points[1:], points[2:]):
            near, far = (towards(corner, before, 5),
                         towards(corner, behind, 5))
            words += ["L%g %g" % near, "Q%g %g %g %g" % (corner + far)]
        end = points[-1]
        words.append("L%g %g" % (towards(end, points[-2], 6) if head else end))
        self.add('<path d="%s" fill="none" stroke="%s" stroke-width="%g"%s/>',
                 "".join(words), colour, width, DASH if dashed else "")
        if head:
            self.head(points, colour, 4 if width < 2 else 5.5)

    def head(self, points, colour, half):
        end = points[-1]
        across = (half, 0) if end[0] == points[-2][0] else (0, half)
        base = towards(end, points[-2], 2 * half)
        self.add('<path d="M%g %gL%g %gL%g %gZ" fill="%s"/>', end[0], end[1],
                 base[0] - across[0], base[1] - across[1],
                 base[0] + across[0], base[1] + across[1], colour)

    def picture(self, width, high):
        return "\n".join([
            '<svg xmlns="http://www.w3.org/2000/svg" width="%d" height="%d" '
            'viewBox="0 0 %d %d" font-family="system-ui, -apple-system, '
            "'Segoe UI', Roboto, Helvetica, Arial, sans-serif\">"
            % (width, high, width, high),
            "<title>%s</title>" % escaped(self.title),
            '<rect width="%d" height="%d" fill="%s"/>' % (width, high, PAPER),
        ] + self.lines + ["</svg>", ""])
