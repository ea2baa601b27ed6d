"""The pictures in docs/figures that are drawn from made jobs.

    BARRIER_LIBRARY=... python3 examples/python/tests/kept_pictures.py

draws them again; a test holds them against what the program draws.
"""
import os
import tempfile

import programs
import support
import picture as program
from barrier_engine import metres, text_of_job

# How many hazards: the title, and the stations of the lots in millimetres.
KEPT = {
    1: ("One hazard on 350 m of two-way road", [0, 150000, 350000]),
    10: ("Ten hazards on 800 m of two-way road", [0, 200000, 400000, 600000, 800000]),
}


def draw(count, out):
    """Draws a kept picture with the program; its status."""
    title, lots = KEPT[count]
    with tempfile.TemporaryDirectory() as folder:
        job = os.path.join(folder, "made.job")
        with open(job, "w", encoding="utf-8") as file:
            file.write(text_of_job(support.made_job(count)))
        stations = [metres(station) for station in lots]
        return program.main([job, "-o", out, "--name", title, "--lots", *stations])


if __name__ == "__main__":
    for hazards in KEPT:
        draw(hazards, os.path.join(programs.FIGURES, f"job-{hazards}.svg"))
