# The layers of the crates from crates.txt, as scripts/layers reads it, so that this picture and the one in
# words are of one tree.
from importlib.machinery import SourceFileLoader
from importlib.util import module_from_spec, spec_from_loader

from drawing import BLUE, FIXED, INK, LINE, PALE, SMALL, WHITE, Picture, height_of

LEFT, WIDE, NAME, PAD, CHIP, GAP = 16, 968, 108, 12, 26, 8
HEADING = ('A layer stands only on those below it. A dashed border: no code, but names, laws or claims. '
           'Drawn from `crates.txt`.')


def tree():
    """The layers from the bottom, and the crates by name."""
    loader = SourceFileLoader('layers_script', 'scripts/layers')
    script = module_from_spec(spec_from_loader('layers_script', loader))
    loader.exec_module(script)
    return script.read()[:2]


def rows(names, wide):
    """Names in rows, each with the place of its left edge and its width, as many to a row as fit."""
    placed, x = [[]], 0
    for name in names:
        need = len(name) * FIXED * SMALL + 18
        if x and x + need > wide:
            placed.append([])
            x = 0
        placed[-1].append((name, x, need))
        x += need + GAP
    return placed


def below(layer, layers, crates):
    """The layers, and the crates of the toolchain, that a layer stands on."""
    needs = [need for crate in layer.crates for need in crate.needs]
    others = {crates[need].layer for need in needs if need in crates} - {layer}
    kit = sorted({need for need in needs if need not in crates})
    said = ', '.join(other.name for other in reversed(layers) if other in others) or 'no other'
    return f'stands on: {said}' + (f'; {", ".join(kit)} of the toolchain' if kit else '')


def band(picture, y, layer, layers, crates, fill):
    """A layer with its crates; where it ends."""
    inner, wide = LEFT + NAME, WIDE - NAME - PAD
    stands, places = below(layer, layers, crates), rows([crate.name for crate in layer.crates], wide)
    texts = height_of(layer.sentence, wide, SMALL) + height_of(stands, wide, SMALL)
    high = 18 + texts + len(places) * (CHIP + 6)
    picture.rect(LEFT, y, WIDE, high, fill, LINE)
    picture.text(LEFT + PAD, y + 7, layer.name, size=15, bold=True)
    at = picture.text(inner, y + 8, layer.sentence, wide, SMALL) + 4
    for row in places:
        for name, x, need in row:
            picture.box(inner + x, at, need, f'@{name}', CHIP, size=SMALL, pad=4, fill=WHITE, stroke=INK,
                        dash='' if crates[name].code else '4 3')
        at += CHIP + 6
    picture.text(inner, at, stands, wide, SMALL)
    return y + high


def draw():
    layers, crates = tree()
    said = '; '.join(f'{layer.name}: {layer.sentence}' for layer in reversed(layers))
    picture = Picture('The layers of the crates', 'The crates, layer upon layer; a layer stands only on '
                      f'those below it. From the top: {said}.')
    y = picture.heading(HEADING)
    for n, layer in enumerate(reversed(layers)):
        y = band(picture, y, layer, layers, crates, BLUE if n % 2 else PALE) + 6
    return picture
