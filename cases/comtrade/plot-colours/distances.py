"""How far apart the colours of pictures are, as CIEDE2000, for eyes with all cones and without red (protan), green (deutan) or blue ones
(tritan), by the matrices of Machado, Oliveira and Fernandes (2009) at full severity. That a page has the same colours as a picture."""

import itertools
import math
import re
from math import cos, degrees, exp, hypot, radians, sin, sqrt

EYES = {
    "all cones": ((1, 0, 0), (0, 1, 0), (0, 0, 1)),
    "protan": ((0.152286, 1.052583, -0.204868), (0.114503, 0.786281, 0.099216), (-0.003882, -0.048116, 1.051998)),
    "deutan": ((0.367322, 0.860646, -0.227968), (0.280085, 0.672501, 0.047413), (-0.011820, 0.042940, 0.968881)),
    "tritan": ((1.255528, -0.076749, -0.178779), (-0.078411, 0.930809, 0.147602), (0.004733, 0.691367, 0.303900)),
}


def linear(colour):
    for i in (1, 3, 5):
        c = int(colour[i : i + 2], 16) / 255
        yield c / 12.92 if c <= 0.04045 else ((c + 0.055) / 1.055) ** 2.4


def lab(rgb):
    def f(t):
        return t ** (1 / 3) if t > 216 / 24389 else (24389 / 27 * t + 16) / 116

    r, g, b = rgb
    x = f((0.4124564 * r + 0.3575761 * g + 0.1804375 * b) / 0.95047)
    y = f(0.2126729 * r + 0.7151522 * g + 0.0721750 * b)
    z = f((0.0193339 * r + 0.1191920 * g + 0.9503041 * b) / 1.08883)
    return 116 * y - 16, 500 * (x - y), 200 * (y - z)


def seen(colour, eye):
    rgb = list(linear(colour))
    return lab([min(1, max(0, sum(m * c for m, c in zip(row, rgb)))) for row in eye])


def distance(one, other):
    (l1, a1, b1), (l2, a2, b2) = one, other
    c = (hypot(a1, b1) + hypot(a2, b2)) / 2
    g = 0.5 * (1 - sqrt(c**7 / (c**7 + 25**7)))
    a1, a2 = (1 + g) * a1, (1 + g) * a2
    c1, c2 = hypot(a1, b1), hypot(a2, b2)
    h1, h2 = degrees(math.atan2(b1, a1)) % 360, degrees(math.atan2(b2, a2)) % 360
    turn = (h2 - h1 + 180) % 360 - 180 if c1 * c2 else 0
    dl, dc, dh = l2 - l1, c2 - c1, 2 * sqrt(c1 * c2) * sin(radians(turn) / 2)
    lm, cm = (l1 + l2) / 2, (c1 + c2) / 2
    hm = (h1 + turn / 2) % 360 if c1 * c2 else h1 + h2
    t = 1 - 0.17 * cos(radians(hm - 30)) + 0.24 * cos(radians(2 * hm)) + 0.32 * cos(radians(3 * hm + 6)) - 0.2 * cos(radians(4 * hm - 63))
    sl = 1 + 0.015 * (lm - 50) ** 2 / sqrt(20 + (lm - 50) ** 2)
    sc, sh = 1 + 0.045 * cm, 1 + 0.015 * cm * t
    rt = -sin(radians(60 * exp(-(((hm - 275) / 25) ** 2)))) * 2 * sqrt(cm**7 / (cm**7 + 25**7))
    return sqrt((dl / sl) ** 2 + (dc / sc) ** 2 + (dh / sh) ** 2 + rt * (dc / sc) * (dh / sh))


def contrast(one, other):
    first, second = sorted(sum(w * c for w, c in zip((0.2126, 0.7152, 0.0722), linear(x))) + 0.05 for x in (one, other))
    return second / first


def main():
    # two pairs of the standard's test data, of Sharma, Wu and Dalal
    assert abs(distance((50, 2.6772, -79.7751), (50, 0, -82.7485)) - 2.0425) < 1e-4
    assert abs(distance((60.2574, -34.0099, 36.2677), (60.4626, -34.1751, 39.4387)) - 1.2644) < 1e-4
    source = "../crates/comtrade_plot/src/"
    light = re.findall(r'=> "(#[0-9a-f]{6})"', open(source + "phases.rt").read())
    style = open(source + "head.rt").read().split("@media print")[0]
    dark = re.findall(r"\.[abcnuvwz]\{stroke:(#[0-9a-f]{6})\}", style)
    page = open("../crates/comtrade_plot/page/page.js").read()
    for name, colours, paper in (("light", light, "#ffffff"), ("dark", dark, "#14171c")):
        least = min(distance(seen(a, eye), seen(b, eye)) for eye in EYES.values() for a, b in itertools.combinations(colours, 2))
        faint = min(contrast(colour, paper) for colour in colours)
        print(f"{name}: {len(colours)} colours, {'all' if least >= 12 else 'not all'} 12 or more apart for every eye,",
            f"contrast {'at least 2.7' if faint >= 2.7 else 'too low'},", "as in the page" if all(c in page for c in colours) else "not as in the page")


main()
