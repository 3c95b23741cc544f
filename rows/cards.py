"""Card images from `column:text` pieces.

`6:H 75:LIST` is a card with H in column 6 and LIST in columns 75 to 78.
A text may hold blanks only inside apostrophes (`45:'NO SALE'`)."""

WIDTH = 96


def split_pieces(line):
    """Cut a line of pieces at blanks that stand outside apostrophes."""
    pieces, piece, quoted = [], "", False
    for char in line:
        if char == "'":
            quoted = not quoted
        if char == " " and not quoted:
            if piece:
                pieces.append(piece)
            piece = ""
        else:
            piece += char
    if piece:
        pieces.append(piece)
    return pieces


def card(line):
    """The card of a line of pieces, without blanks at its end."""
    columns = [" "] * WIDTH
    for piece in split_pieces(line):
        place, _, text = piece.partition(":")
        start = int(place)
        for i, char in enumerate(text):
            columns[start - 1 + i] = char
    return "".join(columns).rstrip(" ")


def deck(lines):
    """Cards of many lines: a line that begins with a column number and a colon is made of
    pieces, any other line is a card as it stands."""
    out = []
    for line in lines:
        head = line.split(":", 1)[0]
        out.append(card(line) if head.isdigit() and ":" in line else line)
    return out


if __name__ == "__main__":
    import sys
    for line in sys.stdin:
        print(card(line.rstrip("\n")))
