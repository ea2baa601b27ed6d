"""The barrier schedule engine from Python.

A job goes in, one straight road and its roadside hazards; the schedule of each
side comes out, the runs of safety barrier with their containment levels.  All
stations, lengths and offsets are whole millimetres.  include/barrier.h is the
manual; bindings/python/README.md says how the shared library is found.

__version__ is the package's version, version() that of the library.
"""
from .c import LibraryError
from .calls import (
    TRIES_MAX, Corner, Corners, Laid, Layout, Quantities, Reach, Record, Version, Written,
    corners, layout, level, lookup, offset, plan, plan_into, quantities, quantity, reach, version,
)
from .job import Hazard, Header, Job, Side
from .job_text import TextJob, bytes_of_text, read_job, read_text, text_of_job
from .metres import Rounding, kilometres, metres, millimetres, station_of_kilometres
from .number_form import Malformed, get_number, put_number
from .open_job import OpenJob
from .planned import PlannedHazard, PlannedRoad, PlannedSide, plan_road
from .refused import HAZARD_NUMBERS, Number, Refused, hazard_fault, refusal, remedy
from .schedule import SCHEDULE_MAX, Run, Schedule, bytes_of_runs, runs_of_bytes
from .spreadsheet import csv_tables, hazards_csv, overhangs_csv, quantities_csv, runs_csv
from .turning import (
    Orientation, swap_side, turn_corner, turn_hazard, turn_overhangs, turn_range, turn_run,
    turn_station,
)

__version__ = "3.3.2"

__all__ = [
    "HAZARD_NUMBERS", "SCHEDULE_MAX", "TRIES_MAX", "Corner", "Corners", "Hazard", "Header", "Job",
    "Laid", "Layout", "LibraryError", "Malformed", "Number", "OpenJob", "Orientation",
    "PlannedHazard", "PlannedRoad", "PlannedSide", "Quantities", "Reach", "Record", "Refused",
    "Rounding", "Run", "Schedule", "Side", "TextJob", "Version", "Written", "bytes_of_runs",
    "bytes_of_text", "corners", "csv_tables", "get_number", "hazard_fault", "hazards_csv", "kilometres", "layout",
    "level", "lookup", "metres", "millimetres", "offset", "overhangs_csv", "plan", "plan_into",
    "plan_road", "put_number", "quantities", "quantities_csv", "quantity", "reach", "read_job",
    "read_text", "refusal", "remedy", "runs_csv", "runs_of_bytes", "station_of_kilometres",
    "swap_side", "text_of_job", "turn_corner", "turn_hazard", "turn_overhangs", "turn_range",
    "turn_run", "turn_station", "version",
]
