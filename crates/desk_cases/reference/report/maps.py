"""The maps of the report: a network in 256 cells, in 16 rows. The ground of a cell shows what all its addresses may, its mark the
most that some may. A cell is 4 units wide.
"""

from reference.report.data import PRIVATE, READ_ONLY, READ_WRITE, ROOT_KEPT, cells, counts, maps_of, network_ends
from reference.report.parts import Alone, Drawn, In, Network, Number, PartOf, Plural, Words, items_html
from reference.report.pieces import COMMA, class_counts, cut, joined
from reference.report.text import CLASS_MARKS

# The most maps of a file system, the four that stand there always counted, and of a group of directories.
MOST_LARGE, MOST_SMALL = 12, 6
FIXED = [(0, 0), *PRIVATE]


def pieces_of(row):
    """The longest pieces of a row of cells, each by its first cell and their number."""
    found = []
    for cell in row:
        if found and sum(found[-1]) == cell:
            found[-1] = found[-1][0], found[-1][1] + 1
        else:
            found.append((cell, 1))
    return found


def ground_path(which):
    """The ground of these cells: rows that are whole, in one piece if they are neighbours, and pieces of the others."""
    path, whole = "", 0
    for y in range(17):
        row = sorted(cell for cell in which if cell // 16 == y)
        if len(row) == 16:
            whole += 1
            continue
        path += f"M0 {4 * (y - whole)}h64v{4 * whole}h-64z" if whole else ""
        whole = 0
        for cell, count in pieces_of(row):
            path += f"M{4 * (cell % 16)} {4 * y}h{4 * count}v4h-{4 * count}z"
    return path


def mark_path(which, value):
    """A square in the middle of each of these cells, and for root kept a diamond as large as the cell."""
    at, shape = (2, "l2 2-2 2-2-2z") if value == ROOT_KEPT else (1, "h2v2h-2z")
    down = 0 if value == ROOT_KEPT else 1
    return "".join(f"M{4 * (cell % 16) + at} {4 * (cell // 16) + down}{shape}" for cell in sorted(which))


def map_paths(classes, network, prefix):
    """A path for the grounds of each class, and then one for the marks of each."""
    least, most = cells(classes, network, prefix)
    paths = ""
    for value in (READ_ONLY, READ_WRITE, ROOT_KEPT):
        full = {cell for cell in range(256) if least[cell] == value}
        paths += f'<path class="{CLASS_MARKS[value]}" d="{ground_path(full)}"/>' if full else ""
    for value in (READ_ONLY, READ_WRITE, ROOT_KEPT):
        some = {cell for cell in range(256) if most[cell] == value != least[cell]}
        paths += f'<path class="{CLASS_MARKS[value]} k" d="{mark_path(some, value)}"/>' if some else ""
    return paths


def map_label(classes, network, prefix):
    words = class_counts(counts(classes, *network_ends(network, prefix)))
    size = [Words(", of "), Number(2 ** (32 - prefix)), Words(" addresses")]
    return items_html([Words("Map of "), Network(network, prefix), Words(": "), *words, *size])


def large_map(classes, network, prefix):
    """A map with the numbers of its rows."""
    label, axis = map_label(classes, network, prefix), "y12" if prefix == 12 else "y"
    paths = f'<use href="#g"/>{map_paths(classes, network, prefix)}<use href="#h"/>'
    return f'<svg class="big" viewBox="-15 -1 80 66" role="img" aria-label="{label}"><use href="#{axis}"/>{paths}</svg>'


def small_map(classes, network, prefix):
    label, paths = map_label(classes, network, prefix), map_paths(classes, network, prefix)
    return f'<svg class="tiny" viewBox="-1 -1 66 66" role="img" aria-label="{label}"><use href="#g"/>{paths}</svg>'


def map_caption(classes, network, prefix):
    name = items_html([Network(network, prefix) if prefix else Words("all of IPv4")])
    some = items_html([PartOf(sum(counts(classes, *network_ends(network, prefix))[1:]), 2 ** (32 - prefix))])
    return f"<figcaption><b>{name}</b> {some} may</figcaption>"


def figures(classes, is_large):
    """The maps that show where the classes change; with those of all addresses and the private networks, if they are large."""
    wanted = maps_of(classes)
    if is_large:
        wanted = FIXED + [network for network in wanted if network not in FIXED]
    most = MOST_LARGE if is_large else MOST_SMALL
    images = [large_map(classes, *network) + map_caption(classes, *network) for network in wanted[:most]]
    made = [Alone("MapsStart"), *(In("Figure", [Drawn(image)]) for image in images), Alone("MapsEnd")]
    return made + not_drawn(wanted[most:])


def not_drawn(rest):
    if not rest:
        return []
    found = [(size, sum(prefix == size for _, prefix in rest)) for size in (8, 16, 24)]
    kinds = [[Plural(count, "network", "networks"), Words(f" /{size}")] for size, count in found if count]
    return cut(Plural(len(rest), "more map is", "more maps are"), Words(" not drawn: "), *joined(kinds, COMMA))
