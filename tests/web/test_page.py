"""The page in Chromium, driven as a user drives it, and judged by the library's replies.

    sh tests/web/run.sh            builds what is needed and runs everything

WEB_PAGE names another page, for the wrong ones of wrong.py; WEB_QUICK leaves out what a wrong one is not looked for with.
"""
import json
import os
import pathlib
import random
import sys
import tempfile
import time
import unittest

sys.path.insert(0, os.path.dirname(os.path.abspath(__file__)))

import browser  # noqa: E402
from browser import choose_in, click, read_text, shown, type_in, wait  # noqa: E402
from library import (  # noqa: E402
    HEADER, HEADWALL, ROOT, Hazard, Job, Side, csv_tables, k_cases, many_hazards, planned, random_job, read_job, replace, text_of)
import barrier_engine  # noqa: E402
from barrier_engine import metres  # noqa: E402
from barrier_engine.refused import HAZARD_NUMBERS, refusal, remedy  # noqa: E402

PAGE = os.environ.get('WEB_PAGE', str(browser.BUILT))
JOBS = int(os.environ.get('WEB_JOBS', '100'))
QUICK = bool(os.environ.get('WEB_QUICK'))
FRAME = 1000 / 60
driver = None
downloads = tempfile.mkdtemp()


def setUpModule():
    global driver
    driver = browser.chromium(downloads=downloads)


def tearDownModule():
    driver.quit()


def rows_of(road, unit=str):
    return [[f'{side.letter}{i}', unit(run.start), unit(run.end), unit(run.length), f'NC-{run.level}', 'Panels']
            for side in road.sides for i, run in enumerate(side.runs, 1)]


def job_text(header=HEADER, hazards=(HEADWALL,), **how):
    return text_of(Job(header, hazards), **how)


class Case(unittest.TestCase):
    maxDiff = 2000

    def setUp(self):
        browser.fresh(driver, PAGE)

    def tearDown(self):
        self.assertEqual(browser.complaints(driver), [])

    def millimetres(self):
        choose_in(driver, 'unit', 'mm')

    def nothing_planned(self, found):
        """Nothing of a plan is left anywhere on the page."""
        self.assertTrue(found['refused'])
        self.assertEqual(found['state'], 'Not planned')
        for key in ('runs', 'overhangs', 'quantities', 'corners'):
            self.assertEqual(found[key], [], key)
        self.assertEqual((found['bars'], found['barriers']), (0, 0))
        self.assertEqual(found['described'], 'The road and its hazards; the job is refused, so no barrier is drawn.')
        self.assertNotIn(' m;', found['summary'])
        for key in ('smallest', 'reach', 'readout'):
            self.assertEqual(found[key], '', key)
        self.assertNotRegex(found['panels'] + found['level'], r'\d')


class Printed(Case):
    """Document 01's printed example, with which the page begins."""

    def test_as_printed(self):
        self.assertEqual(shown(driver)['runs'], [['R1', '155.773', '210.000', '54.227', 'NC-3', 'Panels']])
        self.millimetres()
        found = shown(driver)
        self.assertEqual(found['state'], 'Planned')
        self.assertEqual(found['runs'], [['R1', '155773', '210000', '54227', 'NC-3', 'Panels']])
        self.assertEqual(found['overhangs'], [['Right side', '0', '0'], ['Left side', '0', '0']])
        self.assertEqual(found['quantities'], [['whole road', '0', '1000000', '54227', '54227']])
        self.assertEqual(found['corners'], [['upstream end', '155773', '5059'], ['flare begins', '186660', '3000'], ["hazard's end", '200000', '3000']])
        self.assertEqual(found['envelope'], '155773 to 210000')

    def test_schedule_bytes(self):
        bytes_ = driver.execute_script('return [...barrierPage.engine.plan(barrierPage.jobBytes(barrierPage.page.job), 0).bytes]')
        self.assertEqual(bytes(bytes_).hex().upper(), '01FDC009D3A70303')

    def test_panels_and_level(self):
        self.millimetres()
        type_in(driver, 'panel-lengths', '2500 4000')
        self.assertIn('panels 14: 1 of 2500, 13 of 4000; overrun 273; tries 256; no layout overruns by less than 273', shown(driver)['panels'])
        type_in(driver, 'panel-limit', '15')
        self.assertIn('panels 14: 0 of 2500, 14 of 4000; overrun 1773; tries 15', shown(driver)['panels'])
        type_in(driver, 'panel-limit', '14')
        self.assertIn('no layout that was tried covers it', shown(driver)['panels'])
        type_in(driver, 'panel-limit', '0')
        self.assertIn('barrier_layout refused 17 with 0', shown(driver)['panels'])
        for station, right in ((155772, 'no barrier required'), (155773, 'NC-3 required'), (209999, 'NC-3 required'), (210000, 'no barrier required')):
            type_in(driver, 'level-station', str(station))
            self.assertEqual(shown(driver)['level'], f'Right side, station {station}: {right}; Left side, station {station}: no barrier required')

    def test_smallest_offset(self):
        self.millimetres()
        for longest, words in ((63485, 'M 0 keeps'), (44227, 'M 3000 keeps'), (40000, 'M 3659 keeps'), (37807, 'M 4000 keeps'), (37806, 'no offset M')):
            type_in(driver, 'longest', str(longest))
            self.assertIn(words, shown(driver)['smallest'])

    def test_sheet_corner(self):
        self.millimetres()
        type_in(driver, 'sheet-station', '160000')
        type_in(driver, 'sheet-offset', '4000')
        self.assertEqual([row[1:] for row in shown(driver)['corners']], [['-4227', '1059'], ['26660', '-1000'], ['40000', '-1000']])

    def test_long_run_laid_with_panels_before(self):
        self.millimetres()
        read_text(driver, job_text(replace(HEADER, flare_across=0), [replace(HEADWALL, start=200000, end=344666)]))
        type_in(driver, 'panel-lengths', '2500 4000')
        self.assertIn('no layout', shown(driver)['panels'])
        type_in(driver, 'panel-first', '41')
        self.assertIn('left to lay: 48000; panels 12: 0 of 2500, 12 of 4000; overrun 0', shown(driver)['panels'])

    def test_reach_where_the_module_has_the_call(self):
        has = driver.execute_script("return barrierPage.engine.has('barrier_open_reach')")
        if not has:
            self.assertEqual(shown(driver)['reach'], 'this engine, version %s, has no call for it' % '.'.join(map(str, barrier_engine.version())))
            print('web: NOT run: the stretch of a withdrawal, since the module does not export barrier_open_reach')
            return
        self.millimetres()
        read_text(driver, job_text(replace(HEADER, continuity=20000)))
        self.assertEqual(shown(driver)['reach'], 'Right side: no level changes outside 135773 to 230000')
        read_text(driver, job_text(HEADER, [replace(HEADWALL, near_offset=9000)]))
        self.assertEqual(shown(driver)['reach'], 'it has no envelope: its withdrawal changes nothing')
        read_text(driver, job_text(replace(HEADER, continuity=200000), [replace(HEADWALL, side=Side.LEFT)], fall=True))
        self.assertEqual(shown(driver)['reach'], 'Left side: no level changes outside 0 to 454227')


    def test_reach_laid_out(self):
        """The stretch of a withdrawal as the page shows it, whatever the module has: a stand-in replies fixed numbers."""
        self.millimetres()
        stand_in = """
            const {engine, page} = barrierPage; const [numbers, fall] = arguments;
            const call = (reply, job, name) => numbers.forEach((number, i) => engine.view.setBigUint64(reply + 8 * i, BigInt(number), true));
            engine.exports = {...engine.exports, barrier_open_reach: call};
            page.job.fall = fall; page.changed();
            return [document.getElementById('reach').textContent, ...[0, 1].map((side) => document.querySelectorAll('#drawing [data-group=reach' + side + '] rect').length)];"""
        reply = [0, 0, 0, 155773, 210000, 0, 0, 135773, 230000]
        self.assertEqual(driver.execute_script(stand_in, reply, False), ['Right side: no level changes outside 135773 to 230000', 1, 0])
        self.assertEqual(driver.execute_script(stand_in, reply, True), ['Left side: no level changes outside 770000 to 864227', 0, 1])
        self.assertEqual(driver.execute_script(stand_in, [0] * 9, False), ['it has no envelope: its withdrawal changes nothing', 0, 0])


class KCases(Case):
    def test_all(self):
        self.millimetres()
        for name, header, hazards, wanted, before in k_cases():
            with self.subTest(name):
                read_text(driver, job_text(header, hazards))
                found = shown(driver)
                if wanted == 5:
                    self.nothing_planned(found)
                    self.assertEqual(found['marked'], ['near offset n of hazard 0'])
                    continue
                self.assertEqual([row[1:3] + row[4:5] for row in found['runs']], [[str(s), str(e), f'NC-{level}'] for s, e, level in wanted])
                self.assertEqual(found['overhangs'][0][1:], [str(before), '0'])
                self.assertEqual(found['quantities'][-1][-1], str(sum(e - s for s, e, _ in wanted)))

    def test_sample_jobs(self):
        """Every sample job of the repository, read from its own text."""
        self.millimetres()
        for path in sorted((ROOT / 'examples' / 'jobs').glob('*.job')):
            with self.subTest(path.name):
                text = path.read_text(encoding='utf-8')
                read_text(driver, text)
                road, refused = planned(text)
                found = shown(driver)
                if refused:
                    self.nothing_planned(found)
                else:
                    self.assertEqual(found['runs'], rows_of(road))


class RefusedFields(Case):
    def test_each_header_field(self):
        """A number below and one above each range: the field is marked, its words said, nothing planned; then mended."""
        self.millimetres()
        interface = json.loads((ROOT / 'web' / 'interface.json').read_text())
        choose_in(driver, 'use-panels', True)
        wrong = {'begin': ['1000000'], 'end': ['0', '1000000000001']}
        for field in interface['header']:
            below = [str(field['low'] - 1)] if isinstance(field['low'], int) and field['low'] > 0 else []
            for value in wrong.get(field['key'], below + [str(field['high'] + 1), '99999999999999999999', '4398046511104']):
                with self.subTest(field['key'] + ' ' + value):
                    before = shown(driver)['road']['road-' + field['key']]
                    type_in(driver, 'road-' + field['key'], value)
                    found = shown(driver)
                    self.nothing_planned(found)
                    marked = 'road-end' if field['key'] == 'begin' and value == '1000000' else 'road-' + field['key']
                    self.assertEqual(found['marked'], [marked])
                    self.assertEqual(len(found['refusals']), 1)
                    self.assertNotIn('undefined', found['refusals'][0])
                    type_in(driver, 'road-' + field['key'], before)
                    self.assertEqual(shown(driver)['state'], 'Planned')

    def test_words_are_those_of_the_header(self):
        self.millimetres()
        type_in(driver, 'road-forward', '0')
        said = shown(driver)['refusals'][0]
        self.assertIn(refusal('barrier_open', 3, 4), said)
        self.assertIn(remedy('barrier_open', 3, 4), said)

    def test_what_is_no_number(self):
        for text, words in (('', 'a number is wanted here'), ('abc', 'not a number'), ('-3', 'no number is below 0'), ('3,5', 'write a point, not a comma'),
                            ('3.0001', 'no part below a millimetre'), ('9' * 200, 'at most 20 digits'), ('1e3', 'not a number'), ('<b>x</b>', 'not a number')):
            with self.subTest(text):
                type_in(driver, 'road-zone', text)
                found = shown(driver)
                self.nothing_planned(found)
                self.assertEqual(found['marked'], ['road-zone'])
                self.assertIn(words, found['refusals'][0])
        type_in(driver, 'road-zone', '9.000')
        self.assertEqual(shown(driver)['runs'], [['R1', '155.773', '210.000', '54.227', 'NC-3', 'Panels']])

    def test_each_hazard_field(self):
        self.millimetres()
        for key, value, place in (('start', '1000000', 1), ('end', '200000', 2), ('end', '1000001', 2), ('near', '60001', 3), ('far', '4999', 4), ('far', '60001', 4)):
            with self.subTest(key + value):
                read_text(driver, job_text(HEADER, [HEADWALL, replace(HEADWALL, start=500000, end=510000)]))
                driver.execute_script('''const input = document.querySelectorAll('#hazards tbody tr')[0].querySelectorAll('input:not([type=radio]), select')[arguments[0]];
                    input.value = arguments[1]; input.dispatchEvent(new Event('input', {bubbles: true}));''', ['name', 'label', 'side', 'start', 'end', 'near', 'far', 'level'].index(key), value)
                found = shown(driver)
                self.nothing_planned(found)
                self.assertEqual(found['marked'], [HAZARD_NUMBERS[place][0] + ' of hazard 0'])

    def test_all_faults_at_once(self):
        read_text(driver, job_text(HEADER, [replace(HEADWALL, near_offset=3999), HEADWALL, replace(HEADWALL, level=6, start=5, end=5)]))
        found = shown(driver)
        self.nothing_planned(found)
        self.assertEqual(found['marked'], ['near offset n of hazard 0', 'end station e of hazard 2'])
        self.assertIn(remedy('barrier_add', 5, 0), found['faults'][0])

    def test_a_name_twice_and_too_wide(self):
        read_text(driver, job_text(HEADER, [HEADWALL, replace(HEADWALL, start=500000, end=510000)]))
        name = "#hazards tbody tr:nth-of-type(3) input.number.short"
        type_in(driver, name, '0')
        found = shown(driver)
        self.nothing_planned(found)
        self.assertIn(refusal('barrier_add', 12, 0), found['faults'][0])
        type_in(driver, name, '65536')
        self.nothing_planned(shown(driver))
        type_in(driver, name, '65535')
        self.assertEqual(len(shown(driver)['runs']), 2)


class TheDay(Case):
    """An open job's day: hazards come, one is refused and mended, a state is kept, a variant tried, returned to."""

    def add(self, number, label, side, first, end, near, far, level):
        click(driver, 'add')
        values = [number, label, side, first, end, near, far, level]
        driver.execute_script('''const rows = [...document.querySelectorAll('#hazards tbody tr')].filter((row) => row.querySelector('input'));
            const inputs = rows[rows.length - 1].querySelectorAll('input:not([type=radio]), select');
            arguments[0].forEach((value, i) => { inputs[i].value = value; inputs[i].dispatchEvent(new Event('input', {bubbles: true})); });''', values)

    def library(self, day):
        return [[f'{"RL"[side]}{i}', str(run.start), str(run.end), str(run.length), f'NC-{run.level}', 'Panels']
                for side in Side for i, run in enumerate(day.schedule(side).runs, 1)]

    def test_day(self):
        header = replace(HEADER, runout_opposite=101000, centreline=3500, continuity=30000, panel=4000)
        read_text(driver, job_text(header, []))
        day = barrier_engine.OpenJob(header)
        rod = [(7, 'headwall', '0', '200.0004', '209.9996', '5.0009', '8.9991', '3'), (1020, 'culvert', '0', '420', '428', '4.5', '6', '2'), (1021, 'pier', '1', '600', '606', '4.2', '5', '4')]
        for number, label, side, *numbers, level in rod:
            self.add(number, label, side, *numbers, level)
            down, up = barrier_engine.Rounding.DOWN, barrier_engine.Rounding.UP
            values = [barrier_engine.millimetres(text, way) for text, way in zip(numbers, (down, up, down, up))]
            day.add(number, Hazard(int(side), *values, int(level)))
        self.millimetres()
        self.assertEqual(shown(driver)['runs'], self.library(day))
        # Too near by a millimetre: refused, and mended.
        self.add(1044, 'tree', '0', '700000', '700001', '3999', '4500', '2')
        self.nothing_planned(shown(driver))
        self.assertEqual(shown(driver)['marked'], ['near offset n of hazard 1044'])
        type_in(driver, '#hazards tbody tr.wrong input.number.wrong', '4000')
        day.add(1044, Hazard(0, 700000, 700001, 4000, 4500, 2))
        self.assertEqual(shown(driver)['runs'], self.library(day))
        morning = shown(driver)['runs']
        self.keep(0)
        day.keep(0)
        self.assertEqual(shown(driver)['states'][0], 'hazards: 4, as in the table')
        # A variant: one withdrawn, one moved; kept as well.
        driver.execute_script("document.querySelector('[aria-label=\"Withdraw hazard 1020\"]').click()")
        day.withdraw(1020)
        self.assertEqual(shown(driver)['runs'], self.library(day))
        self.keep(3)
        day.keep(3)
        self.return_to(0)
        day.return_to(0)
        self.assertEqual(shown(driver)['runs'], morning)
        self.assertEqual([row[0] for row in shown(driver)['hazards']], ['7', '1020', '1021', '1044'])
        self.return_to(3)
        day.return_to(3)
        self.assertEqual(shown(driver)['runs'], self.library(day))
        # The engine's own memory is the library's, byte for byte, with both states in it.
        self.assertEqual(bytes(driver.execute_script('return [...barrierPage.engine.saved()]')), bytes(day))
        # States stand after the road is changed, and after a reload.
        type_in(driver, 'road-continuity', '0')
        self.return_to(0)
        other = barrier_engine.OpenJob(replace(header, continuity=0))
        day.return_to(0)
        for number, hazard in day.hazards.items():
            other.add(number, hazard)
        self.assertEqual(shown(driver)['runs'], self.library(other))
        time.sleep(0.5)
        browser.ready(driver, PAGE, driver.execute_script('return location.hash.slice(1)'))
        self.assertEqual(shown(driver)['runs'], self.library(other))
        self.assertEqual(shown(driver)['states'][3], 'hazards: 3')
        self.return_to(3)
        other.withdraw(1020)
        self.assertEqual(shown(driver)['runs'], self.library(other))
        # A state that this road refuses cannot be returned to, and can again when the road is as it was.
        type_in(driver, 'road-offset', '3001')
        self.assertEqual(shown(driver)['states'][3], 'hazards: 3, refused on this road')
        self.assertTrue(driver.execute_script("return document.querySelectorAll('#states li')[3].querySelectorAll('button')[1].disabled"))
        self.nothing_planned(shown(driver))
        type_in(driver, 'road-offset', '3000')
        self.assertEqual(shown(driver)['runs'], self.library(other))

    def keep(self, number):
        driver.execute_script("document.querySelectorAll('#states li')[arguments[0]].querySelectorAll('button')[0].click()", number)

    def return_to(self, number):
        driver.execute_script("document.querySelectorAll('#states li')[arguments[0]].querySelectorAll('button')[1].click()", number)


class RandomJobs(Case):
    def test_tables_equal_the_library(self):
        """Runs, overhangs, quantities, envelopes, corners, levels and all four tables, of random jobs."""
        self.millimetres()
        chance = random.Random(42)
        accepted = refusals = stations = hazards = 0
        for number in range(JOBS):
            text, lots = random_job(chance)
            with self.subTest(number=number, text=text, lots=lots):
                read_text(driver, text)
                type_in(driver, 'lots', ' '.join(map(str, lots)))
                found = shown(driver)
                road, refused = planned(text)
                if refused:
                    refusals += 1
                    self.nothing_planned(found)
                    self.assertIn(f'hazard {refused.value}', ' '.join(found['marked']))
                    continue
                accepted += 1
                self.assertEqual(found['runs'], rows_of(road))
                self.assertEqual([row[1:] for row in found['overhangs']], [[str(side.before), str(side.after)] for side in road.sides])
                self.same_csv(road, lots)
                self.same_quantities(found, road, lots)
                stations += self.same_levels(chance, text, road)
                hazards += self.same_hazards(chance, text, road)
        print(f'web: {JOBS} random jobs, {accepted} planned as the library plans them, {refusals} refused as it refuses them; {stations} levels, {hazards} hazards asked for')
        self.assertGreater(accepted, JOBS * 0.6)

    def same_csv(self, road, lots):
        wanted = csv_tables(road, lots)
        for name, text in wanted.items():
            self.assertEqual(driver.execute_script('const {page, csvOf} = barrierPage; return csvOf(page.planner, page.plan, arguments[0], false)', name), text)
        self.assertEqual(driver.execute_script("const {page, csvOf} = barrierPage; return csvOf(page.planner, page.plan, 'runs', true)"), csv_tables(road, lots, True)['runs'])

    def same_quantities(self, found, road, lots):
        columns = [(side, level) for side in range(2) for level in range(1, 7) if road.sides[side].amounts([(road.header.begin, road.header.end)])[0][level - 1]]
        self.assertEqual(found['quantityHeads'][3:], [f'{"RL"[side]} NC-{level}' for side, level in columns] + ['all'])
        ranges = list(zip(lots, lots[1:])) + [(road.header.begin, road.header.end)]
        amounts = [side.amounts(ranges) for side in road.sides]
        for i, (p, q) in enumerate(ranges):
            row = found['quantities'][i if i < len(ranges) - 1 else -1]
            wanted = [amounts[side][i][level - 1] for side, level in columns]
            self.assertEqual(row[1:], [str(p), str(q), *map(str, wanted), str(sum(wanted))])

    def same_levels(self, chance, text, road):
        read = read_job(text.encode('utf-8'))
        ends = [t for side in road.sides for run in side.runs for t in (run.start - 1, run.start, run.end - 1, run.end)]
        some = [t for t in chance.sample(ends, min(3, len(ends))) + [chance.randrange(road.header.begin, road.header.end)] if t >= 0]
        for station in some:
            type_in(driver, 'level-station', str(station))
            lies = read.orientation
            asked = road.header.begin + road.header.end - 1 - station if lies.stations_fall else station
            wanted = []
            for side in Side:
                on_road = 0 <= asked
                level = barrier_engine.level(read.data, lies.side(side), asked) if on_road else 0
                wanted.append(f'{side.name.capitalize()} side, station {station}: ' + (f'NC-{level} required' if level else 'no barrier required'))
            self.assertEqual(shown(driver)['level'], '; '.join(wanted))
        return len(some)

    def same_hazards(self, chance, text, road):
        for planned_hazard in chance.sample(road.hazards, min(2, len(road.hazards))):
            driver.execute_script("document.querySelectorAll('#hazards input[type=radio]')[arguments[0]].click()", planned_hazard.index)
            found = shown(driver)
            if planned_hazard.envelope is None:
                self.assertEqual(found['envelope'], 'outside the clear zone: no barrier for it')
            else:
                self.assertEqual(found['envelope'], '%d to %d' % planned_hazard.envelope)
            corners = planned_hazard.corners
            wanted = [] if corners is None else [[str(int(c.station)), str(int(c.offset))] for c in (corners.upstream, corners.flare, corners.hazard)]
            self.assertEqual([row[1:] for row in found['corners']], wanted)
            self.same_reach(found, road, planned_hazard)
            if corners is not None:
                longest = chance.randrange(1, 120000)
                type_in(driver, 'longest', str(longest))
                offset = barrier_engine.offset(read_job(text.encode('utf-8')).data, planned_hazard.index, longest)
                self.assertEqual(shown(driver)['smallest'], 'no offset M keeps it so short' if offset is None else f'M {offset} keeps it so short')
        return min(2, len(road.hazards))

    def same_reach(self, found, road, planned_hazard):
        """From G before the envelope, cut at the road's ends, to G after it; where the module has the call."""
        if 'has no call for it' in found['reach']:
            return
        wanted = 'it has no envelope: its withdrawal changes nothing'
        if planned_hazard.envelope is not None:
            begin, end, limit = road.header.begin, road.header.end, road.header.continuity
            start, stop = max(planned_hazard.envelope[0], begin), min(planned_hazard.envelope[1], end)
            side = Side(planned_hazard.hazard.side).name.capitalize()
            wanted = f'{side} side: no level changes outside {max(begin, start - limit)} to {min(end, stop + limit)}'
        self.assertEqual(found['reach'], wanted)


class InAndOut(Case):
    def test_text_there_and_back(self):
        chance = random.Random(5)
        for _ in range(30):
            text, _ = random_job(chance)
            read_text(driver, text)
            back = driver.execute_script('return barrierPage.textOfJob(barrierPage.page.job)')
            mine, theirs = read_job(text.encode()), read_job(back.encode())
            self.assertEqual((mine.data, mine.names, mine.orientation), (theirs.data, theirs.names, theirs.orientation))
            self.assertEqual(bytes(driver.execute_script('return [...barrierPage.jobBytes(barrierPage.page.job)]')), mine.data)

    def test_texts_word_for_word(self):
        """What is wrong with a text is said as the other programs say it: tests/vendor/texts.txt."""
        sys.path.insert(0, str(ROOT / 'tests' / 'vendor'))
        import texts
        count = own = 0
        for message, text in texts.cases():
            count += 1
            said = driver.execute_script('''try { barrierPage.jobOfFile(Uint8Array.from(arguments[0])); return ''; } catch (error) {
                if (!(error instanceof barrierPage.Malformed)) throw error; return error.message; }''', list(text))
            if message == '' and said.startswith('the text says '):
                own += 1  # a kind or a count that contradicts the other lines: the page has no field for it
                continue
            self.assertEqual(said, message, text[-80:])
        print(f'web: {count} texts read, or reported word for word; {own} of them have a kind or a count that the page has no field for')

    def test_address(self):
        """A link is a job: names, numbers, lots, how it is driven."""
        self.millimetres()
        text = job_text(HEADER, [replace(HEADWALL, side=Side.LEFT), replace(HEADWALL, start=500000, end=510000)], names=['ñ "no"'.replace('"', ''), ''], left=True)
        read_text(driver, text)
        type_in(driver, 'lots', '0 300000 1000000')
        type_in(driver, 'title', 'Ruta 5 <b>')
        type_in(driver, '#hazards tbody tr:nth-of-type(3) input.number.short', '1020')
        before = shown(driver)
        wait(lambda: 'title=' in driver.current_url and '1020' in driver.current_url)
        link = driver.current_url
        driver.execute_script('clearTimeout(barrierPage.page.settling); localStorage.clear()')
        driver.get('about:blank')
        driver.get(link)
        wait(lambda: driver.execute_script('return document.documentElement.dataset.ready'))
        self.millimetres()
        after = shown(driver)
        for key in ('runs', 'overhangs', 'quantities', 'hazards', 'road'):
            self.assertEqual(before[key], after[key], key)
        self.assertEqual(driver.execute_script("return document.getElementById('title').value"), 'Ruta 5 <b>')
        self.assertEqual(driver.execute_script("return document.getElementById('drives-left').checked"), True)

    def test_another_link_in_the_same_page(self):
        other = driver.execute_script('''const job = {...barrierPage.page.job, hazards: []}; return barrierPage.fragmentOf(job)''')
        driver.execute_script('location.hash = arguments[0]', other)
        wait(lambda: shown(driver)['runs'] == [])
        self.assertEqual(shown(driver)['state'], 'Planned')

    def test_undo(self):
        self.millimetres()
        start = shown(driver)['runs']
        time.sleep(0.4)
        driver.execute_script("document.querySelector('[aria-label=\"Withdraw hazard 0\"]').click()")
        time.sleep(0.4)
        type_in(driver, 'road-forward', '50000')
        self.assertEqual(shown(driver)['runs'], [])
        click(driver, 'undo')
        self.assertEqual(shown(driver)['road']['road-forward'], '101000')
        self.assertEqual(shown(driver)['runs'], [])
        click(driver, 'undo')
        self.assertEqual(shown(driver)['runs'], start)
        time.sleep(0.4)
        self.assertTrue(driver.execute_script("return document.getElementById('undo').disabled"))

    def test_a_number_too_great_is_not_stored(self):
        self.millimetres()
        time.sleep(0.5)
        before = driver.current_url
        type_in(driver, 'road-end', '99999999999999')
        self.nothing_planned(shown(driver))
        time.sleep(0.5)
        self.assertEqual(driver.current_url, before)

    def test_state_survives_a_reload(self):
        choose_in(driver, 'language', 'es')
        choose_in(driver, 'unit', 'mm')
        type_in(driver, 'road-forward', '50000')
        before = shown(driver)['runs']
        time.sleep(0.6)
        driver.get('about:blank')
        driver.get(browser.address(PAGE))
        wait(lambda: driver.execute_script('return document.documentElement.dataset.ready'))
        self.assertEqual(shown(driver)['runs'], before)
        self.assertEqual(shown(driver)['state'], 'Planeado')

    def saved(self, button, ending):
        before = set(os.listdir(downloads))
        click(driver, button)
        # The browser reserves the name with an empty file first.
        files = lambda: (pathlib.Path(downloads) / name for name in set(os.listdir(downloads)) - before if name.endswith(ending))
        return wait(lambda: [file for file in files() if file.stat().st_size])[0].read_bytes()

    def test_files(self):
        job = read_job(job_text().replace('"', '').encode())
        self.assertEqual(read_job(self.saved('save-text', '.job')).data, job.data)
        self.assertEqual(self.saved('save-bytes', '.bytes'), job.data)
        road, _ = planned(job_text(names=['culvert headwall']))
        for name, text in csv_tables(road).items():
            choose_in(driver, 'csv-table', name)
            self.assertEqual(self.saved('save-csv', name + '.csv').decode(), text)
        svg = self.saved('save-svg', '.svg').decode()
        import xml.etree.ElementTree
        tree = xml.etree.ElementTree.fromstring(svg)
        words = ' '.join(tree.itertext())
        self.assertNotIn('class="chosen"', svg)
        for word in ('155.773', '210.000', 'R1', 'NC-6', 'culvert headwall', 'Right side: runs 1, barrier 54.227 m'):
            self.assertIn(word, words)

    def test_open_a_file(self):
        self.millimetres()
        folder = pathlib.Path(tempfile.mkdtemp())
        (folder / 'a.bytes').write_bytes(read_job(job_text(replace(HEADER, flare_across=0)).encode()).data)
        (folder / 'b.job').write_text(job_text(HEADER, [replace(HEADWALL, near_offset=9000)]))
        (folder / 'c.png').write_bytes(b'\x89PNG\r\n')
        place = driver.find_element('id', 'open')
        place.send_keys(str(folder / 'a.bytes'))
        wait(lambda: shown(driver)['runs'] and shown(driver)['runs'][0][1] == '132666')
        place.send_keys(str(folder / 'b.job'))
        wait(lambda: shown(driver)['runs'] == [])
        place.send_keys(str(folder / 'c.png'))
        wait(lambda: 'what stood on the page still stands' in shown(driver)['message'])


class Driving(Case):
    def test_on_the_left_by_a_switch(self):
        """barrier.h's four roads: sides are swapped by the switch, and said as they are."""
        self.millimetres()
        header = replace(HEADER, runout_opposite=101000, centreline=3500, flare_across=0)
        for left, side, wanted in ((False, 0, ('R1', '132666', '238056')), (False, 1, ('L1', '171944', '277334')), (True, 1, ('L1', '132666', '238056')), (True, 0, ('R1', '171944', '277334'))):
            read_text(driver, job_text(header, [replace(HEADWALL, side=side)]))
            choose_in(driver, 'drives-left', left)
            self.assertEqual(shown(driver)['runs'][0][:3], list(wanted))

    def test_falling_stations(self):
        self.millimetres()
        choose_in(driver, 'stations-fall', True)
        self.assertEqual(shown(driver)['runs'][0][:3], ['R1', '200000', '254227'])


class Languages(Case):
    def test_every_word_changes(self):
        choose_in(driver, 'language', 'es')
        found = shown(driver)
        self.assertEqual(found['state'], 'Planeado')
        self.assertEqual(found['runs'][0][0], 'D1')
        words = json.loads((ROOT / 'web' / 'words.json').read_text())
        text = driver.execute_script('return document.body.innerText')
        for key in ('road.title', 'hazards.title', 'runs.title', 'lots.title', 'states.title', 'files.title', 'hazard.title', 'panels.title', 'draw.title'):
            self.assertIn(words[key][1], text)
            self.assertNotIn('\n' + words[key][0] + '\n', text)
        type_in(driver, 'road-forward', '0')
        self.assertIn('debe ser 1 a 200000', shown(driver)['refusals'][0])
        self.assertEqual(driver.execute_script('return document.documentElement.lang'), 'es')

    def test_refusals_are_those_of_the_header(self):
        calls = ['plan', 'level', 'corners', 'offset', 'quantity', 'quantities', 'lookup', 'layout', 'open', 'add', 'withdraw', 'open_schedule', 'keep', 'return']
        rows = driver.execute_script('''const found = [];
            for (const call of arguments[0]) for (let number = 0; number < 19; number++) for (const value of [0, 1, 7, 13, 14, 15, 16]) {
                const refused = new barrierPage.Refused('barrier_' + call, number, value);
                found.push([barrierPage.reasonOf(refused), barrierPage.remedyOf(refused)]);
            } return found;''', calls)
        wanted = [[refusal('barrier_' + call, number, value), remedy('barrier_' + call, number, value)] for call in calls for number in range(19) for value in (0, 1, 7, 13, 14, 15, 16)]
        self.assertEqual(rows, wanted)
        print(f'web: {len(rows)} refusals in the words of barrier_help.h')


class Hostile(Case):
    EVIL = '<img src=x onerror="window.hacked=1"><script>window.hacked=1</script>&lt;\'`'

    def unharmed(self):
        self.assertIsNone(driver.execute_script('return window.hacked || null'))
        self.assertEqual(driver.execute_script("return document.querySelectorAll('img, iframe, body script:not([type]) ~ script').length"), 0)
        self.assertEqual(driver.execute_script('return document.documentElement.dataset.ready'), 'yes')

    def test_addresses(self):
        good = driver.execute_script('return barrierPage.fragmentOf(barrierPage.page.job)')
        chance = random.Random(9)
        cases = ['job=', 'job=%%%', 'x', 'job=AAAA', 'job=' + 'A' * 20000, 'job=AQ', self.EVIL, 'job=' + self.EVIL, good + '&names=' + self.EVIL, good + '&lots=9.1',
                 good + '&lots=1e9', good + '&numbers=99999999999999', good + '&lots=' + '.'.join(['1'] * 999), good[:-3], good + 'AAAA', good.replace('job=', 'job=Ag'), '%00%00', 'job=__8', '&&&&===']
        cases += [''.join(chance.choice('ABCDefgh0123-_=&%.#') for _ in range(chance.randrange(1, 200))) for _ in range(30)]
        for fragment in cases:
            with self.subTest(fragment[:60]):
                driver.execute_script('clearTimeout(barrierPage.page.settling); localStorage.clear()')
                browser.ready(driver, PAGE, fragment)
                self.unharmed()
                found = shown(driver)
                self.assertIn(found['state'], ('Planned', 'Not planned'))
                driver.execute_script("location.hash = arguments[0] + '&a'", fragment)
                self.unharmed()
        print(f'web: {len(cases)} hostile addresses')

    def test_texts(self):
        chance = random.Random(11)
        good = job_text(names=['x'])
        evil = self.EVIL.replace('"', '')[:50]
        cases = ['', ' ', '\x00', '\ufeff', 'road', 'road 1 2 3', good + 'hazard right 1 2 3 4', good + '"', good.replace('road 0', 'road 99999999999999999999'), 'a' * 100000,
                 good.replace('9000', '18446744073709551615'), good.replace('9000', '18446744073709551616'), good + 'hazard right 0 1 2 3 4 "' + evil + '"\n', good + f'# {self.EVIL}\n', self.EVIL,
                 good + 'hazard right 200000 210000 5000 9000 3 # ' + self.EVIL, good + 'hazard right 200000 210000 5000 9000 3\n' * 300, 'constructor 1\n', '__proto__ 1\n', good + 'toString left\n', '\u202e' + good]
        for _ in range(60):
            letters = list(good)
            for _ in range(chance.randrange(1, 6)):
                letters[chance.randrange(len(letters))] = chance.choice(' \n"#0123456789abz-+.,<>\t\u00e9')
            cases.append(''.join(letters))
        for text in cases:
            with self.subTest(text[-60:]):
                read_text(driver, text)
                self.unharmed()
                road, refused, wrong = None, None, None
                try:
                    road, refused = planned(text)
                except ValueError as error:
                    wrong = error
                found = shown(driver)
                if wrong is not None or refused is not None and refused.number in (3,) and refused.value >= 14:
                    continue
                if refused is not None:
                    self.nothing_planned(found)
                elif not found['refused'] and driver.execute_script("return document.getElementById('text-fault').textContent") == '':
                    self.assertEqual([row[4] for row in found['runs']], [f'NC-{run.level}' for side in road.sides for run in side.runs])
        print(f'web: {len(cases)} hostile texts')

    def test_names_and_titles_are_text(self):
        type_in(driver, '#hazards tbody tr input.label', self.EVIL)
        type_in(driver, 'title', self.EVIL)
        click(driver, 'add')
        self.unharmed()
        self.assertTrue(driver.execute_script('return barrierPage.page.makeSheets()'))
        self.unharmed()
        svg = driver.execute_script('return barrierPage.page.svgDocument()')
        import xml.etree.ElementTree
        tree = xml.etree.ElementTree.fromstring(svg)
        self.assertEqual([one.tag for one in tree.iter() if one.tag.endswith(('script', 'img', 'image', 'foreignObject'))], [])

    def test_stored_garbage(self):
        for kept in ('', '{', 'null', '[]', '{"job": 5}', '{"job": "job=AAAA"}', '{"job":"x","states":[[{"name":-1}],5,"a",null],"settings":{"unit":"<b>","paper":7},"language":"xx","window":[5,1]}',
                     json.dumps({'job': 'job=AQ', 'states': [[{'name': 1e99}]]})):
            with self.subTest(kept):
                driver.execute_script("clearTimeout(barrierPage.page.settling); localStorage.setItem('barrier_engine.page', arguments[0])", kept)
                browser.ready(driver, PAGE)
                self.unharmed()
                self.assertEqual(shown(driver)['runs'], [['R1', '155.773', '210.000', '54.227', 'NC-3', 'Panels']])

    def test_nothing_is_fetched(self):
        """The page's policy forbids every connection; none is made, and a try is refused."""
        policy = driver.execute_script("return document.querySelector('meta[http-equiv]').content")
        self.assertIn("default-src 'none'", policy)
        self.assertIn("connect-src 'none'", policy)
        self.assertNotIn('unsafe-inline', policy)
        entries = driver.execute_script("return performance.getEntriesByType('resource').map((one) => one.name)")
        self.assertEqual(entries, [])
        told = driver.execute_async_script('''const done = arguments[0];
            fetch('https://example.invalid/').then(() => done('sent'), (error) => done('refused'));''')
        self.assertEqual(told, 'refused')
        driver.execute_script("const one = document.createElement('script'); one.textContent = 'window.hacked = 1'; document.body.append(one); one.remove()")
        self.assertIsNone(driver.execute_script('return window.hacked || null'))
        self.assertTrue(any('Content Security Policy' in line for line in browser.complaints(driver)))


class Many(Case):
    def test_256_hazards_dragged(self):
        """256 hazards: planned as by the library, and one is dragged with the pointer; each redraw is measured."""
        job = many_hazards()
        text = text_of(job)
        read_text(driver, text)
        self.millimetres()
        road, _ = planned(text)
        self.assertEqual(shown(driver)['runs'], rows_of(road))
        self.assertTrue(driver.execute_script("return document.getElementById('add').disabled"))
        index = next(i for i, hazard in enumerate(job.hazards) if hazard.start > 6000000 and hazard.side == Side.RIGHT and hazard.near_offset == 6000)
        before = driver.execute_script('return barrierPage.page.job.hazards[arguments[0]]', index)
        driver.execute_script("document.getElementById('drawing').scrollIntoView()")
        # Other programs on the machine make single runs slow: the best of three is judged.
        runs = []
        for attempt in range(3):
            runs.append(self.dragged(index, 1 if attempt % 2 == 0 else -1))
            if runs[-1][0] < FRAME:
                break
        moved = driver.execute_script('return barrierPage.page.job.hazards[arguments[0]]', index)
        self.assertNotEqual(before, moved)
        changed = list(job.hazards)
        changed[index] = replace(changed[index], start=moved['start'], end=moved['end'], near_offset=moved['near'], far_offset=moved['far'])
        road, refused = planned(text_of(Job(job.header, changed)))
        self.assertIsNone(refused)
        self.assertEqual(shown(driver)['runs'], rows_of(road))
        middle, most, count, interval = min(runs)
        print(f'web: 256 hazards, {count} redraws while dragging: median {middle:.1f} ms, 95 of 100 within {most:.1f} ms; frames {interval:.1f} ms apart (median)')
        time.sleep(1)
        print('web: ' + driver.execute_script("return document.getElementById('engine-time').textContent"))
        load = os.getloadavg()[0]
        if middle >= FRAME and load > 1.5 * os.cpu_count():
            print(f'web: NOT judged: the time of a redraw, on a machine under load ({load:.1f} on {os.cpu_count()} cores)')
        else:
            self.assertLess(middle, FRAME)

    def dragged(self, index, way):
        """Drags a hazard with the pointer, there and partly back: median and 95th of 100 of the redraws, their count, the median between frames."""
        from selenium.webdriver.common.action_chains import ActionChains
        driver.execute_script('''barrierPage.page.frames = []; window.ticks = [];
            const tick = (now) => { window.ticks.push(now); window.ticking = requestAnimationFrame(tick); }; window.ticking = requestAnimationFrame(tick);''')
        hazard = driver.find_element('css selector', f'#drawing [data-hazard="{index}"] .body')
        actions = ActionChains(driver, duration=40)
        actions.move_to_element(hazard).click_and_hold()
        for step in range(60):
            actions.move_by_offset(way * (3 if step < 30 else -2), 1 if step % 2 and way > 0 else 0)
        actions.release().perform()
        ticks = driver.execute_script('cancelAnimationFrame(window.ticking); return window.ticks')
        frames = sorted(driver.execute_script('return barrierPage.page.frames'))
        self.assertGreater(len(frames), 10)
        intervals = sorted(b - a for a, b in zip(ticks, ticks[1:]))
        return frames[len(frames) // 2], frames[int(len(frames) * 0.95)], len(frames), intervals[len(intervals) // 2]

    def test_dragging_shows_a_refusal_and_takes_it_back(self):
        from selenium.webdriver.common.action_chains import ActionChains
        hazard = driver.find_element('css selector', '#drawing .hazard .body')
        ActionChains(driver, duration=50).move_to_element(hazard).click_and_hold().move_by_offset(0, -40).perform()
        wait(lambda: shown(driver)['refused'])
        self.nothing_planned(shown(driver))
        self.assertEqual(shown(driver)['marked'], ['near offset n of hazard 0'])
        ActionChains(driver, duration=50).move_by_offset(0, 40).release().perform()
        wait(lambda: not shown(driver)['refused'])
        self.assertEqual(len(shown(driver)['runs']), 1)

    def test_level_under_the_pointer(self):
        from selenium.webdriver.common.action_chains import ActionChains
        self.millimetres()
        driver.set_window_size(1400, 1700)
        self.addCleanup(driver.set_window_size, 1400, 1000)
        time.sleep(0.3)
        svg = driver.find_element('id', 'drawing')
        box = driver.execute_script('''const drawing = barrierPage.page.canvas.drawing; const box = document.getElementById('drawing').getBoundingClientRect();
            return [box.width, box.height, drawing.frame.freeX(180000) * box.width / drawing.frame.width, (20 - drawing.top) * box.height / drawing.height]''')
        ActionChains(driver, duration=20).move_to_element_with_offset(svg, int(box[2] - box[0] / 2), int(box[3] - box[1] / 2)).perform()
        self.assertRegex(wait(lambda: shown(driver)['readout']), r'^Right side, station 1(79|80|81)\d\d\d: NC-3 required$')


class Keyboard(Case):
    def test_everything_has_a_name(self):
        """Every control has a label for screen readers, and every marked part a role."""
        nameless = driver.execute_script('''
            const named = (one) => one.getAttribute('aria-label') || one.labels && [...one.labels].some((label) => label.textContent.trim()) || one.textContent.trim();
            return [...document.querySelectorAll('button, input, select, textarea, [role=button]')].filter((one) => !named(one)).map((one) => one.outerHTML.slice(0, 120));''')
        self.assertEqual(nameless, [])
        self.assertEqual(driver.execute_script("const ids = [...document.querySelectorAll('[id]')].map((one) => one.id); return ids.filter((id, i) => ids.indexOf(id) !== i)"), [])
        missing = driver.execute_script('''return [...document.querySelectorAll('[aria-describedby], [aria-labelledby]')].flatMap((one) =>
            ((one.getAttribute('aria-describedby') || '') + ' ' + (one.getAttribute('aria-labelledby') || '')).split(' ').filter((id) => id && !document.getElementById(id)))''')
        self.assertEqual(missing, [])

    def test_a_hazard_by_keys_alone(self):
        from selenium.webdriver.common.keys import Keys
        self.millimetres()
        body = driver.find_element('tag name', 'body')
        body.send_keys(Keys.TAB)
        for _ in range(40):
            active = driver.switch_to.active_element
            if active.get_attribute('data-hazard') is not None:
                break
            active.send_keys(Keys.TAB)
        self.assertEqual(active.get_attribute('data-hazard'), '0')
        active.send_keys(Keys.ALT + Keys.ARROW_RIGHT + Keys.NULL)
        self.assertEqual(shown(driver)['hazards'][0][3:5], ['200001', '210001'])
        active.send_keys(Keys.ALT + Keys.SHIFT + Keys.ARROW_LEFT + Keys.NULL)
        self.assertEqual(shown(driver)['hazards'][0][3:5], ['200001', '210000'])
        active.send_keys(Keys.ALT + Keys.ARROW_DOWN + Keys.NULL)
        self.assertEqual(shown(driver)['hazards'][0][5:7], ['5001', '9001'])
        self.assertEqual(shown(driver)['runs'][0][1:3], ['155774', '210000'])
        driver.switch_to.active_element.send_keys(Keys.DELETE)
        self.assertEqual(shown(driver)['hazards'], [])
        self.assertEqual(shown(driver)['noRuns'], 'No barrier is required.')

    def test_add_and_withdraw_by_keys(self):
        from selenium.webdriver.common.keys import Keys
        driver.find_element('id', 'add').send_keys(Keys.ENTER)
        self.assertEqual(len(shown(driver)['hazards']), 2)
        self.assertEqual(shown(driver)['state'], 'Planned')
        self.assertEqual(driver.execute_script('return document.activeElement.className'), 'label')
        driver.find_elements('css selector', '#hazards button')[1].send_keys(Keys.ENTER)
        self.assertEqual(len(shown(driver)['hazards']), 1)

    def test_contrast(self):
        """Text against what is behind it: 4.5 to 1 or more, by the web's own formula."""
        wrong = driver.execute_script('''
            const parts = (text) => text.match(/[\\d.]+/g).map(Number);
            const light = ([r, g, b]) => { const f = (c) => (c /= 255) <= 0.03928 ? c / 12.92 : ((c + 0.055) / 1.055) ** 2.4; return 0.2126 * f(r) + 0.7152 * f(g) + 0.0722 * f(b); };
            const ground = (one) => { for (; one; one = one.parentElement) { const c = parts(getComputedStyle(one).backgroundColor); if (c.length < 4 || c[3] > 0) return c; } return [255, 255, 255]; };
            const found = [];
            for (const one of document.querySelectorAll('body *')) {
                if (one.closest('svg') || one.disabled || !one.offsetParent || ![...one.childNodes].some((n) => n.nodeType === 3 && n.textContent.trim())) continue;
                const [a, b] = [light(parts(getComputedStyle(one).color)), light(ground(one))];
                const ratio = (Math.max(a, b) + 0.05) / (Math.min(a, b) + 0.05);
                if (ratio < 4.5) found.push(one.tagName + ' ' + one.textContent.trim().slice(0, 40) + ' ' + ratio.toFixed(2));
            }
            return found;''')
        self.assertEqual(wrong, [])


class Widths(Case):
    def tearDown(self):
        driver.set_window_size(1400, 1000)
        super().tearDown()

    def test_no_sideways_scrolling(self):
        for width in (1400, 1000, 700, 500):
            driver.set_window_size(width, 900)
            time.sleep(0.2)
            over = driver.execute_script('return document.documentElement.scrollWidth - document.documentElement.clientWidth')
            self.assertLessEqual(over, 0, width)

    def test_phone(self):
        driver.execute_cdp_cmd('Emulation.setDeviceMetricsOverride', {'width': 390, 'height': 844, 'deviceScaleFactor': 1, 'mobile': True})
        try:
            browser.fresh(driver, PAGE)
            self.assertEqual(driver.execute_script('return document.documentElement.scrollWidth'), 390)
            self.assertEqual(driver.execute_script('return barrierPage.page.canvas.drawing.frame.narrow'), True)
            small = driver.execute_script("return [...document.querySelectorAll('button')].filter((one) => one.offsetParent && one.getBoundingClientRect().height < 32).length")
            self.assertEqual(small, 0)
        finally:
            driver.execute_cdp_cmd('Emulation.clearDeviceMetricsOverride', {})


class Sheets(Case):
    def test_sheets(self):
        read_text(driver, text_of(many_hazards(40)))
        type_in(driver, 'sheet', '500')
        self.assertTrue(driver.execute_script('return barrierPage.page.makeSheets()'))
        self.assertEqual(driver.execute_script("return document.querySelectorAll('#sheets .picture svg').length"), 4)
        rows = driver.execute_script("return [...document.querySelectorAll('#sheets .sheet:last-child table')][2].tBodies[0].rows.length")
        self.assertEqual(rows, len(shown(driver)['runs']))
        type_in(driver, 'sheet', '1')
        self.assertFalse(driver.execute_script('return barrierPage.page.makeSheets()'))

    def test_a_refused_job_has_no_sheet(self):
        self.assertTrue(driver.execute_script('return barrierPage.page.makeSheets()'))
        type_in(driver, 'road-forward', '0')
        self.assertFalse(driver.execute_script('return barrierPage.page.makeSheets()'))
        self.assertEqual(driver.execute_script("return document.querySelectorAll('#sheets svg, #sheets table').length"), 0)

    def test_on_paper(self):
        import base64
        for paper, size in (('a3', (16.54, 11.69)), ('a4', (11.69, 8.27))):
            choose_in(driver, 'paper', paper)
            pdf = base64.b64decode(driver.execute_cdp_cmd('Page.printToPDF', {'preferCSSPageSize': True, 'printBackground': True})['data'])
            import re
            boxes = [tuple(float(n) / 72 for n in found.split()[2:4]) for found in re.findall(rb'/MediaBox *\[([^\]]*)\]'.decode(), pdf.decode('latin-1'))]
            self.assertTrue(boxes)
            for box in boxes:
                self.assertAlmostEqual(box[0], size[0], 1)
                self.assertAlmostEqual(box[1], size[1], 1)


if QUICK:
    # For the wrong pages: without what looks at speed, widths and paper only.
    del Widths, Sheets
    Many.test_256_hazards_dragged = unittest.skip('quick')(Many.test_256_hazards_dragged)
    Hostile.test_addresses = unittest.skip('quick')(Hostile.test_addresses)


if __name__ == '__main__':
    unittest.main()
