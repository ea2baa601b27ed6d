"""What the tests share.  Importing it makes the package found."""
import atexit
import functools
import os
import random
import shutil
import subprocess
import sys
import tempfile
from dataclasses import replace

HERE = os.path.dirname(os.path.abspath(__file__))
PYTHON = os.path.dirname(HERE)
ROOT = os.path.dirname(os.path.dirname(PYTHON))
JOBS = os.path.join(ROOT, "examples", "jobs")
sys.path.insert(0, PYTHON)

from barrier_engine import Hazard, Header, Job, Refused, Side  # noqa: E402

# Document 01's printed example, and its cases' common changes.
HEADER = Header(0, 1000000, 101000, 0, 9000, 0, 3000, 1000, 15, 1, 13340, 0)
HEADWALL = Hazard(Side.RIGHT, 200000, 210000, 5000, 9000, 3)
PRINTED = Job(HEADER, [HEADWALL])
NO_FLARE = replace(HEADER, flare_across=0)


def job(header=HEADER, *changes):
    """The headwall with each of these changes, on a header."""
    return Job(header, [replace(HEADWALL, **change) for change in changes or ({},)])


def refusal(call, *arguments):
    """The number, the value and the call of a refusal; None where there is none."""
    try:
        call(*arguments)
    except Refused as refused:
        return refused.number, refused.value, refused.call
    return None


def sample_jobs():
    """The names of the sample jobs, without their ending."""
    return sorted(name[:-4] for name in os.listdir(JOBS) if name.endswith(".job"))


def sample_text(name, ending=".job"):
    with open(os.path.join(JOBS, name + ending), encoding="utf-8") as file:
        return file.read()


HAS_CC = shutil.which("cc") is not None


@functools.lru_cache(None)
def built(name):
    """A program of examples in C, built against the library that is tested."""
    folder = tempfile.mkdtemp()
    atexit.register(shutil.rmtree, folder, ignore_errors=True)
    program = os.path.join(folder, name)
    words = ["cc", "-std=c99", "-O1", "-I" + os.path.join(ROOT, "include"),
             os.path.join(ROOT, "examples", name + ".c"), "-o", program]
    library = os.environ.get("BARRIER_LIBRARY")
    if name != "jobtext" and library:
        words += [library, "-Wl,-rpath," + os.path.dirname(os.path.abspath(library))]
    elif name != "jobtext":
        words += ["-lbarrier_engine"]
    subprocess.run(words, check=True)
    return program


def called(name, data, *words):
    """What a program in C makes of its input: status, output, and what it says."""
    done = subprocess.run([built(name), *words], input=data, stdout=subprocess.PIPE,
                          stderr=subprocess.PIPE, timeout=60)
    return done.returncode, done.stdout, done.stderr.decode("utf-8")


# Seeds with which few hazards show much: both sides, both traffics, overhangs.
SEEDS = {1: 135, 10: 1896}


def random_hazard(chance, header, low=None, high=None):
    """A hazard between two stations, in range, that leaves the barrier its room."""
    low, high = low or header.begin, high or header.end
    start = chance.randrange(low, high - 1)
    end = min(header.end, start + chance.choice((300, 2000, 8000, 30000)))
    # Reached by both traffics, by the adjacent one, by nobody.
    near = chance.choice((4200, 4500, 5000, 5000, 6000, 7500, 9500))
    far = near + chance.choice((200, 1500, 4000, 9000))
    return Hazard(chance.randrange(2), start, end, near, far, chance.randrange(1, 7))


def made_job(count):
    """A job of so many hazards along a two-way road, the same one each time."""
    chance = random.Random(SEEDS.get(count, count))
    length = 300000 + 50000 * count
    header = replace(HEADER, end=length, runout_opposite=101000, centreline=3500, continuity=20000)
    part = length // count
    hazards = [random_hazard(chance, header, i * part, (i + 1) * part) for i in range(count)]
    chance.shuffle(hazards)
    return Job(header, hazards)
