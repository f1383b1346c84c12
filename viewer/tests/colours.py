"""Whether the colours of votes can be told apart by people who see fewer colours, by simulations of Machado, Oliveira and
Fernandes (2009). Letters and forms stand beside the colours, so only kinds of one form are compared."""
import itertools
import re

import texts

# what is left of linear red, green and blue where one kind of cone is missing
VISIONS = {
    "all cones": ((1, 0, 0), (0, 1, 0), (0, 0, 1)),
    "protanopia": ((0.152286, 1.052583, -0.204868), (0.114503, 0.786281, 0.099216), (-0.003882, -0.048116, 1.051998)),
    "deuteranopia": ((0.367322, 0.860646, -0.227968), (0.280085, 0.672501, 0.047413), (-0.011820, 0.042940, 0.968881)),
    "tritanopia": ((1.255528, -0.076749, -0.178779), (-0.078411, 0.930809, 0.147602), (0.004733, 0.691367, 0.303900)),
}
TO_XYZ = ((0.4124, 0.3576, 0.1805), (0.2126, 0.7152, 0.0722), (0.0193, 0.1192, 0.9505))
WHITE = (0.9505, 1.0, 1.089)
# a difference of about 2 can just be seen where colours lie side by side
LEAST = 15
FORMS = {
    "square": "VAL ECHO READY DELIVERED",
    "round": "EST BVAL AUX CONF PICK COIN DECIDED",
    "six-sided": "PROPOSE NOMORE CLOSED",
}


def linear(colour):
    """A colour as shares of light."""
    parts = [int(colour[at:at + 2], 16) / 255 for at in (1, 3, 5)]
    return [part / 12.92 if part <= 0.04045 else ((part + 0.055) / 1.055) ** 2.4 for part in parts]


def times(matrix, vector):
    """A matrix applied to a vector."""
    return [sum(a * b for a, b in zip(row, vector)) for row in matrix]


def lab(light):
    """The coordinates of CIE L*a*b*."""
    def bend(t):
        return t ** (1 / 3) if t > 0.008856 else 7.787 * t + 16 / 116
    x, y, z = (bend(part / white) for part, white in zip(times(TO_XYZ, light), WHITE))
    return 116 * y - 16, 500 * (x - y), 200 * (y - z)


def seen(colour, vision):
    """How a colour is seen."""
    return lab([min(1, max(0, part)) for part in times(VISIONS[vision], linear(colour))])


def colours():
    """The colours in the page's sources."""
    text = (texts.TOP / "viewer" / "words.js").read_text(encoding="utf-8")
    found = re.search(r"COLOURS = \{(.*?)\}", text, re.DOTALL)[1]
    return dict(re.findall(r'([A-Z]+): "(#[0-9a-f]{6})"', found))


def differences():
    """Of each two kinds of one form how far apart their colours are, the least of all visions first."""
    known = colours()
    for names in FORMS.values():
        for one, other in itertools.combinations(names.split(), 2):
            for vision in VISIONS:
                pair = (seen(known[name], vision) for name in (one, other))
                yield sum((a - b) ** 2 for a, b in zip(*pair)) ** 0.5, one, other, vision


def check(checks):
    """Each two colours of one form differ enough."""
    checks.about = "the colours"
    for distance, one, other, vision in differences():
        checks.true(f"{one} and {other} differ by {distance:.1f} with {vision}", distance >= LEAST)


if __name__ == "__main__":
    for found in sorted(differences())[:12]:
        print("%.1f %s %s %s" % found)
