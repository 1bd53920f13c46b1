"""The text of GeoJSON of mappings with exact coordinates, as `polytwkb unpack --geojson` writes it."""


def decimal_of(number):
    """A coordinate without an exponent and without zeros that say nothing. No precision has more than seven decimals."""
    whole, part = divmod(abs(int(number * 10**7)), 10**7)
    return f"{'-' if number < 0 else ''}{whole}.{part:07}".rstrip("0").rstrip(".")


def array_of(coordinates):
    parts = map(array_of if isinstance(coordinates, list) else decimal_of, coordinates)
    return f"[{','.join(parts)}]"


def text_of(mapping):
    ids = f',"ids":[{",".join(map(str, mapping["ids"]))}]' if "ids" in mapping else ""
    if "geometries" in mapping:
        members = f'"geometries":[{",".join(map(text_of, mapping["geometries"]))}]'
    else:
        members = f'"coordinates":{array_of(mapping["coordinates"])}'
    return f'{{"type":"{mapping["type"]}"{ids},{members}}}'
