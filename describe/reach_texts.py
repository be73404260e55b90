"""What is written for the proof of pe_reach that files which agree before the end of the headers have the same headers."""

from typing import List

from description import Description, Field
from header_texts import place_of, read_fields


def _agreeing(it: Field) -> str:
    """Why two files have the same number in a field."""
    place = place_of(it)
    offset, width = place.narrow
    one = f"{'coff' if place.is_coff else 'field'}_agrees f g a {offset} {width} (omega arith) i"
    if place.is_coff or place.is_same():
        return f"{it.name} = {one};"
    if place.wide is None:
        return f"{it.name} = if pe32_agrees f g a i then Some ({one}) else None;"
    return f"{it.name} = either_agrees f g a {offset} {width} {place.wide[0]} {place.wide[1]} (omega arith) (omega arith) i;"


def part(description: Description, what: str) -> List[str]:
    """A part of crates/pe_reach/proofs/Headers.antt: `agreeing of headers`."""
    if what != "agreeing of headers":
        raise KeyError(what)
    return [_agreeing(it) for it in read_fields(description)]
