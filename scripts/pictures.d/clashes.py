# Finds what nobody wants in a picture: a text that lies on another one or on a line, or that leaves the
# picture. One that grows with the tree, as that of the layers does, is then not drawn, rather than badly.
ROOM = 2  # between a text, as wide as the widest font makes it, and a line


def apart(one, other):
    return one[2] <= other[0] or other[2] <= one[0] or one[3] <= other[1] or other[3] <= one[1]


def crosses(edge, text):
    """Whether a straight line meets the place of a text, by cutting it down to that place side by side."""
    (a, b), (x, y) = edge
    low, high = 0.0, 1.0
    for start, step, least, most in ((a, x - a, text[0], text[2]), (b, y - b, text[1], text[3])):
        if step == 0:
            if not least < start < most:
                return False
            continue
        enters, leaves = sorted(((least - start) / step, (most - start) / step))
        low, high = max(low, enters), min(high, leaves)
    return low < high


def said(text):
    return ' '.join(''.join(piece.text for piece in word) for word in text[4])


def found(picture):
    texts = picture.texts
    for n, text in enumerate(texts):
        if text[0] < 4 or text[2] > picture.width - 4 or text[1] < 4:
            yield f'"{said(text)}" leaves the picture'
        for other in texts[:n]:
            if not apart(text, other):
                yield f'"{said(text)}" lies on "{said(other)}"'
        around = (text[0] - ROOM, text[1] - ROOM, text[2] + ROOM, text[3] + ROOM)
        if any(crosses(edge, around) for edge in picture.edges):
            yield f'"{said(text)}" lies on a line'
