"""Takes the layers of a plan from a GeoJSON file and writes the common ground of its rows as GeoJSON, so that QGIS opens both.

    PYTHONPATH=python python3 python/examples/geojson.py python/examples/site.geojson --margin zones=1500 > rows.geojson

Each feature names its layer in the property `layer`; layers are numbered as they first occur. A feature's rectangle is the bounding box of its geometry, taken
outwards to whole millimetres. Coordinates are metres, as of a projected coordinate system, and may lie anywhere: the plan is laid about the middle of the site,
which may reach ten kilometres either way of it. A row is a polygon where it has ground, a line or a point where its rectangles only touch; its properties name
the feature of each layer (its property `name`, else its place), its area in square millimetres and its kind.
"""

import argparse
import json
import math
import sys
from fractions import Fraction

import overlay

MILLIMETRES = 1000
"""Millimetres of a unit of the file."""


def positions(coordinates):
    """All positions of a geometry's coordinates, however deep they stand."""
    if coordinates and not isinstance(coordinates[0], list):
        yield Fraction(coordinates[0]), Fraction(coordinates[1])
    else:
        for part in coordinates:
            yield from positions(part)


def geometries(geometry):
    """A geometry's parts that have coordinates."""
    if geometry["type"] == "GeometryCollection":
        for part in geometry["geometries"]:
            yield from geometries(part)
    else:
        yield geometry


def bounding_box(feature):
    """Left, bottom, right and top of a feature, exactly, in units of the file."""
    places = [at for geometry in geometries(feature["geometry"]) for at in positions(geometry["coordinates"])]
    across, upward = zip(*places)
    return min(across), min(upward), max(across), max(upward)


def floats_around(low, high):
    """The nearest floats that lie not above the one and not below the other."""
    below, above = float(low), float(high)
    if Fraction(below) > low:
        below = math.nextafter(below, -math.inf)
    if Fraction(above) < high:
        above = math.nextafter(above, math.inf)
    return below, above


def corner_record(box, origin):
    """A box in millimetres from an origin, as the floats of a corner record that contains it."""
    left, right = floats_around(*((side - origin[0]) * MILLIMETRES for side in (box[0], box[2])))
    bottom, top = floats_around(*((side - origin[1]) * MILLIMETRES for side in (box[1], box[3])))
    return left, bottom, right, top


def shape(rect, origin):
    """The geometry of a common ground, back in units of the file."""
    left, right = (float(Fraction(side, MILLIMETRES) + origin[0]) for side in (rect.left, rect.right))
    bottom, top = (float(Fraction(side, MILLIMETRES) + origin[1]) for side in (rect.bottom, rect.top))
    if rect.left == rect.right and rect.bottom == rect.top:
        return {"type": "Point", "coordinates": [left, bottom]}
    if rect.left == rect.right or rect.bottom == rect.top:
        return {"type": "LineString", "coordinates": [[left, bottom], [right, top]]}
    ring = [[left, bottom], [right, bottom], [right, top], [left, top], [left, bottom]]
    return {"type": "Polygon", "coordinates": [ring]}


def common_ground(site, margins):
    """The rows of a site's plan as GeoJSON; margins are millimetres by the layer's name."""
    layers = {}
    for feature in filter(lambda feature: feature["geometry"], site["features"]):
        layers.setdefault(str(feature["properties"]["layer"]), []).append(feature)
    if len(layers) < 2:
        raise overlay.Refused(overlay.Cause.LAYERS)
    boxes = {name: [bounding_box(feature) for feature in layer] for name, layer in layers.items()}
    left, bottom, right, top = zip(*(box for layer in boxes.values() for box in layer))
    origin = math.floor((min(left) + max(right)) / 2), math.floor((min(bottom) + max(top)) / 2)
    drawn = [
        overlay.Layer(overlay.cover_records([corner_record(box, origin) for box in layer]), margins.get(name, 0))
        for name, layer in boxes.items()
    ]
    plan = overlay.Plan(drawn)
    features = []
    for page in plan.pages():
        for places in page.rows:
            common = plan.common(places)
            chosen = zip(layers.items(), places)
            told = {name: layer[place]["properties"].get("name", place) for (name, layer), place in chosen}
            told.update(area=plan.row(places).area, kind=common.kind)
            features.append({"type": "Feature", "properties": told, "geometry": shape(common.rect, origin)})
    crs = {"crs": site["crs"]} if "crs" in site else {}
    return {"type": "FeatureCollection", **crs, "features": features}


def main() -> int:
    """Reads the file that is named, and prints the rows."""
    parser = argparse.ArgumentParser(description=__doc__, formatter_class=argparse.RawDescriptionHelpFormatter)
    parser.add_argument("file", help="a GeoJSON file")
    parser.add_argument("--margin", action="append", default=[], metavar="LAYER=MILLIMETRES", help="the distance kept around a layer")
    arguments = parser.parse_args()
    margins = {name: int(width) for name, _, width in (margin.rpartition("=") for margin in arguments.margin)}
    with open(arguments.file, encoding="utf-8") as file:
        # Numbers are taken as they are written, not as the nearest float.
        site = json.load(file, parse_float=Fraction)
    try:
        told = common_ground(site, margins)
    except overlay.Refused as refused:
        print(refused, file=sys.stderr)
        return 1
    lines = ",\n".join(map(json.dumps, told.pop("features")))
    print(f'{json.dumps(told)[:-1]}, "features": [\n{lines}\n]}}')
    return 0


if __name__ == "__main__":
    sys.exit(main())
