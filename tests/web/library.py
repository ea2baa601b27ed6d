"""The engine as a library, by which the page is judged: portable/barrier_engine.c compiled for this machine, through bindings/python."""
import pathlib
import random
import sys
from dataclasses import replace

ROOT = pathlib.Path(__file__).resolve().parents[2]
sys.path.insert(0, str(ROOT / 'bindings' / 'python'))

from barrier_engine import (  # noqa: E402
    Hazard, Header, Job, Refused, Side, csv_tables, plan_road, read_job, text_of_job)

HEADER = Header(0, 1000000, 101000, 0, 9000, 0, 3000, 1000, 15, 1, 13340, 0)
HEADWALL = Hazard(Side.RIGHT, 200000, 210000, 5000, 9000, 3)


def text_of(job, names=(), left=False, fall=False):
    """A job's text; sides and stations are the road's own."""
    text = text_of_job(job, names)
    return text + ('drives left\n' if left else '') + ('stations fall\n' if fall else '')


# Document 01's cases K1 to K10: header changes, hazards, runs on the right or the refusal, overhang before A.
def k_cases():
    def head(**changes):
        return replace(HEADER, **changes)

    def hazard(start=200000, end=210000, near=5000, level=3):
        return Hazard(Side.RIGHT, start, end, near, 9000, level)
    two = 210000 + 44227
    flat = head(flare_across=0)
    k4 = head(flare_across=0, runout_opposite=101000, centreline=3500)
    return [
        ('K1', HEADER, [hazard()], [(155773, 210000, 3)], 0),
        ('K2', flat, [hazard()], [(132666, 210000, 3)], 0),
        ('K3', head(flare_across=0, runout_forward=88000, clear_zone=8500, barrier_offset=2000), [hazard()], [(200000 - 67295, 210000, 3)], 0),
        ('K4', k4, [hazard()], [(132666, 238056, 3)], 0),
        ('K5', k4, [hazard(near=5500)], [(132666, 210000, 3)], 0),
        ('K6', HEADER, [hazard(near=8999)], [(155773, 210000, 3)], 0),
        ('K6, outside', HEADER, [hazard(near=9000)], [], 0),
        ('K7', HEADER, [hazard(near=4000)], [(155773, 210000, 3)], 0),
        ('K7, refused', HEADER, [hazard(near=3999)], 5, 0),
        ('K8', flat, [hazard(start=67334)], [(0, 210000, 3)], 0),
        ('K8, overhang', flat, [hazard(start=67333)], [(0, 210000, 3)], 1),
        ('K9, one run', head(continuity=50000), [hazard(level=2), hazard(two + 49999, 310000, level=2)], [(155773, 310000, 2)], 0),
        ('K9, two runs', head(continuity=50000), [hazard(level=2), hazard(two + 50000, 310000, level=2)], [(155773, 210000, 2), (260000, 310000, 2)], 0),
        ('K10', head(runout_forward=1, flare_across=0, continuity=50), [hazard(1, 100), hazard(141, 200, level=1)], [(0, 100, 3), (100, 200, 1)], 0),
    ]


def random_header(chance):
    begin = chance.choice((0, 0, 250000, 998000000000))
    length = chance.choice((2000, 300000, 1000000, 5000000, 2000000000))
    two_way = chance.random() < 0.6
    return Header(
        begin=begin, end=begin + length, runout_forward=chance.choice((1, 40000, 101000, 200000)),
        runout_opposite=chance.choice((1, 40000, 101000)) if two_way else 0, clear_zone=chance.choice((3000, 9000, 30000)),
        centreline=chance.choice((0, 3500, 7000)), barrier_offset=chance.choice((0, 500, 3000)), deflection=chance.choice((1, 500, 1000)),
        flare_along=chance.choice((1, 15, 100)), flare_across=chance.choice((0, 1, 1, 10)), straight=chance.choice((0, 13340, 100000)),
        continuity=chance.choice((0, 1, 20000, 200000)), panel=chance.choice((None, None, 1, 4000, 9999)))


def random_hazard(chance, header):
    start = chance.randrange(header.begin, header.end)
    end = min(header.end, start + chance.choice((1, 300, 8000, 60000)))
    least = header.barrier_offset + header.deflection
    near = chance.choice((least, least, least + chance.randrange(6000), header.clear_zone, 60000))
    return Hazard(chance.randrange(2), start, max(end, start + 1), min(near, 60000), min(60000, near + chance.choice((0, 200, 4000))), chance.randrange(1, 7))


def random_job(chance, count=None):
    """A job's text and its lots; one in ten has something that the engine refuses."""
    header = random_header(chance)
    count = chance.choice((0, 1, 2, 5, 12, 40)) if count is None else count
    hazards = [random_hazard(chance, header) for _ in range(count)]
    if hazards and chance.random() < 0.1:
        at = chance.randrange(count)
        least = header.barrier_offset + header.deflection
        hazards[at] = replace(hazards[at], near_offset=max(0, least - 1), far_offset=60000)
    fall = header.runout_opposite == 0 and chance.random() < 0.3
    names = [chance.choice(('', 'pole', 'muro ñ', '=1+1', 'a,b', "it's")) for _ in hazards]
    text = text_of(Job(header, hazards), names, chance.random() < 0.4, fall)
    lots = sorted(chance.randrange(header.begin, header.end + 1) for _ in range(chance.choice((0, 0, 2, 5, 70))))
    return text, lots


def many_hazards(count=256, seed=7):
    """So many hazards along a two-way road, most of them with barrier."""
    chance = random.Random(seed)
    header = replace(HEADER, end=50000 * count, runout_opposite=101000, centreline=3500, continuity=20000)
    hazards = []
    for i in range(count):
        start = i * 50000 + chance.randrange(40000)
        near = chance.choice((4200, 4500, 5000, 6000, 7500, 9500))
        hazards.append(Hazard(chance.randrange(2), start, start + chance.choice((300, 2000, 8000)), near, near + chance.choice((200, 1500, 4000)), chance.randrange(1, 7)))
    return Job(header, hazards)


def planned(text):
    """The road as the library plans it, or the refusal."""
    try:
        return plan_road(read_job(text.encode('utf-8'))), None
    except Refused as refused:
        return None, refused


__all__ = ['HEADER', 'HEADWALL', 'Hazard', 'Header', 'Job', 'Refused', 'Side', 'csv_tables', 'k_cases', 'many_hazards', 'plan_road', 'planned', 'random_job', 'read_job',
           'replace', 'text_of']
