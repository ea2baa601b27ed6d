"""Tables of a planned road for a spreadsheet, as examples/listing.c writes them.

A line of heads, then a line for each row; lines end as RFC 4180 has it.  Lengths
stand in millimetres, again in metres with a decimal point, and stations in
kilometres too where they are asked for.
"""
from __future__ import annotations

from typing import Callable, Dict, List, NamedTuple, Optional, Sequence, Tuple

from .metres import kilometres, metres
from .planned import LEVELS, PlannedRoad

Cells = Sequence[Optional[int]]  # lengths in millimetres; None is an empty cell


class _Column(NamedTuple):
    head: str
    is_station: bool


_UNITS: Tuple[Tuple[str, Callable[[int], str]], ...] = (
    ("mm", str), ("m", metres), ("km", kilometres))


class _Table:
    """Rows of texts and lengths, to text."""

    def __init__(self, texts: str, columns: Sequence[_Column], in_kilometres: bool) -> None:
        self.columns, self.units = columns, _UNITS[:3 if in_kilometres else 2]
        heads = [f"{column.head}_{unit}" for unit, _ in self.units for column in columns
                 if unit != "km" or column.is_station]
        self.rows = [",".join([texts, *heads])]

    def add(self, texts: Sequence[str], cells: Cells) -> None:
        row = list(texts)
        for unit, words in self.units:
            row += ["" if cell is None else words(cell) for column, cell in zip(self.columns, cells)
                    if unit != "km" or column.is_station]
        self.rows.append(",".join(row))

    def text(self) -> str:
        return "".join(f"{row}\r\n" for row in self.rows)


def _station(head: str) -> _Column:
    return _Column(head, True)


def _length(head: str) -> _Column:
    return _Column(head, False)


def _name(name: str) -> str:
    """A name: with a ' in front where a spreadsheet would take it for a formula, in
    quotes where a comma or a quote is in it."""
    guarded = f"'{name}" if name[:1] in tuple("=+-@") else name
    if "," not in name and '"' not in name:
        return guarded
    return '"' + guarded.replace('"', '""') + '"'


def runs_csv(road: PlannedRoad, in_kilometres: bool = False) -> str:
    """The runs of both sides, under the names that sheets give them."""
    columns = [_station("start"), _station("end"), _length("length")]
    table = _Table("side,run,level", columns, in_kilometres)
    for side in road.sides:
        for number, run in enumerate(side.runs, 1):
            table.add([side.side.name.lower(), f"{side.letter}{number}", str(run.level)],
                      [run.start, run.end, run.length])
    return table.text()


def quantities_csv(
    road: PlannedRoad, lot_stations: Sequence[int] = (), in_kilometres: bool = False
) -> str:
    """The quantity of each level that a side has, by lots and outside them.

    Without lots the road is the first one, and nothing lies outside it.
    """
    columns = [_station("lot_start"), _station("lot_end"), _length("quantity")]
    table = _Table("side,lot,level", columns, in_kilometres)
    whole = (road.header.begin, road.header.end)
    stations = list(lot_stations) or list(whole)
    lots = list(zip(stations, stations[1:]))
    for side in road.sides:
        (of_road,), of_lots = side.amounts([whole]), side.amounts(lots)
        outside = [all_ - sum(some) for all_, *some in zip(of_road, *of_lots)]
        rows: List[Tuple[str, Optional[int], Optional[int], Sequence[int]]] = [
            (str(i), p, q, amounts) for i, ((p, q), amounts) in enumerate(zip(lots, of_lots), 1)]
        if lot_stations:
            rows.append(("outside", None, None, outside))
        for lot, p, q, amounts in rows:
            for level in LEVELS:
                if of_road[level - 1]:
                    table.add([side.side.name.lower(), lot, str(level)], [p, q, amounts[level - 1]])
    return table.text()


def hazards_csv(road: PlannedRoad, in_kilometres: bool = False) -> str:
    """The hazards in the job's order, with their names and envelopes."""
    columns = [_station("start"), _station("end"), _length("near_offset"), _length("far_offset"),
               _station("envelope_start"), _station("envelope_end")]
    table = _Table("hazard,name,side,level", columns, in_kilometres)
    for planned in road.hazards:
        h = planned.hazard
        side = "left" if h.side else "right"
        table.add([str(planned.index), _name(planned.name), side, str(h.level)],
                  [h.start, h.end, h.near_offset, h.far_offset,
                   *(planned.envelope or (None, None))])
    return table.text()


def overhangs_csv(road: PlannedRoad) -> str:
    """How far approaches extend past the road's ends, into the neighbouring contracts."""
    table = _Table("side", [_length("before"), _length("after")], False)
    for side in road.sides:
        table.add([side.side.name.lower()], [side.before, side.after])
    return table.text()


def csv_tables(
    road: PlannedRoad, lot_stations: Sequence[int] = (), in_kilometres: bool = False
) -> Dict[str, str]:
    """All four tables, by their names."""
    return {
        "runs": runs_csv(road, in_kilometres),
        "quantities": quantities_csv(road, lot_stations, in_kilometres),
        "hazards": hazards_csv(road, in_kilometres),
        "overhangs": overhangs_csv(road),
    }
