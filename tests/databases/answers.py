"""What the functions of both databases must say of a case, and GeoJSON beside the second implementation."""
import json
import random
from decimal import Decimal

import wkb
from geojson import text_of

NO_IDS = "polytwkb: row {}: an id, which WKB cannot have: 'drop' leaves ids out"


def ids_refused(case):
    """What twkb_wkb says of a blob with ids; None of one without."""
    first = next((place for place, row in enumerate(case.rows, 1) if row[2] is not None), None)
    return first and NO_IDS.format(first)


def exchanged(case):
    """Of a case whose coordinates doubles have: its WKB, and its box. Of one that comes back from WKB also that WKB in some
    spelling, its precision, and its blob."""
    if case.fault or not wkb.is_exact(case.tree):
        return None
    back = wkb.packed_of(case.tree, "full")
    given = back and (wkb.wkb_of(case.tree, wkb.Heads(random.Random(case.value))), *back)
    return wkb.wkb_of(case.tree), wkb.box_of(case.tree), given


def expected_of(case):
    """The answers of all functions of a blob: rows, or the text of an error."""
    if case.fault:
        refused = f"polytwkb: {case.fault}"
        return {"fault": case.fault, "rows": refused, "headers": refused, "polyline": refused}
    kind = case.rows[0][1]
    polyline = case.rows[0][4] if kind in ("point", "linestring") else None
    return {"fault": None, "rows": case.rows, "headers": case.headers, "polyline": [(polyline,)]}


def differing(case, answers):
    """The functions whose answer differs, with it."""
    expected = expected_of(case)
    faults = [(name, answers[name]) for name in expected if answers[name] != expected[name]]
    if case.fault and answers["geojson"] != expected["rows"]:
        faults.append(("geojson", answers["geojson"]))
    return faults


def former_text_of(mapping, precision):
    """The text that twkb_geojson wrote before: as many decimals as the precision has, and ids last."""

    def decimal_before(number):
        shown = max(precision[0], 0)
        digits = str(abs(int(number * 10**shown))).zfill(shown + 1)
        sign = "-" if number < 0 else ""
        return sign + (f"{digits[:-shown]}.{digits[-shown:]}" if shown else digits)

    def array_of(coordinates):
        return f"[{','.join(map(array_of if isinstance(coordinates, list) else decimal_before, coordinates))}]"

    if "geometries" in mapping:
        texts = map(former_text_of, mapping["geometries"], precision[1])
        members = f'"geometries":[{",".join(texts)}]'
    else:
        members = f'"coordinates":{array_of(mapping["coordinates"])}'
    ids = f',"ids":[{",".join(map(str, mapping["ids"]))}]' if "ids" in mapping else ""
    return f'{{"type":"{mapping["type"]}",{members}{ids}}}'


def precisions_of(headers):
    """The precisions of a geometry and of its members, as a tree."""
    tree, above = None, []
    for level, _, _, precision, *_ in headers:
        node = (precision, [])
        del above[level:]
        if above:
            above[-1][1].append(node)
        else:
            tree = node
        above.append(node)
    return tree


def values_of(text):
    """The value of JSON, with exact numbers."""
    return json.loads(text, parse_float=Decimal, parse_int=Decimal)


def geojson_fault(case, text):
    """The text, if it is not that of the geometry, or has another value than the text that was written before."""
    before = former_text_of(case.mapping, precisions_of(case.headers))
    return [] if text == text_of(case.mapping) and values_of(text) == values_of(before) else [("geojson", text)]


def shown(case, faults):
    lines = [f"case {case!r}"[:2000]]
    return "\n".join(lines + [f"  {name}: {answer!r}"[:1000] for name, answer in faults])
