"""Wrong pages: each has one deliberate fault in its script, words, table or module, and the tests of test_page.py have to find it.

    wrong.py [FIRST LAST]

A fault that is not found is a failure. The tests run with WEB_QUICK and fewer random jobs.
"""
import os
import pathlib
import shutil
import subprocess
import sys
import tempfile

ROOT = pathlib.Path(__file__).resolve().parents[2]

# What is wrong; the file; what stands there; what is put in its place; the tests that should find it.
FAULTS = [
    ('the sides are not swapped for traffic on the left', 'script/job.js', 'return job.left !== job.fall;', 'return job.fall;', 'Driving RandomJobs'),
    ('stations that fall are turned by one millimetre too many', 'script/job.js', 'return job.fall ? [sum - end, sum - start] : [start, end];', 'return job.fall ? [sum - end - 1, sum - start - 1] : [start, end];', 'Driving RandomJobs'),
    ('the level asked for where stations fall is that of the next millimetre', 'script/plan.js', 'turned(job, BigInt(station) + 1n)', 'turned(job, BigInt(station))', 'RandomJobs'),
    ('runs are shown with the end of the run before', 'script/numbers.js', 'runs.push({start: end + distance,', 'runs.push({start: end,', 'Printed'),
    ('a number of more than four groups is written wrong', 'script/numbers.js', 'value = Math.floor(value / 128)) into', 'value = (value >> 7)) into', 'RandomJobs'),
    ('metres lose their zeros', 'script/numbers.js', "'.' + padded(size % 1000, 3);", "'.' + (size % 1000);", 'Printed'),
    ('a near offset is rounded up', 'script/fields.js', "unit: 'length', rounding: -1}", "unit: 'length', rounding: 1}", 'TheDay'),
    ('quantities are asked for one lot too few', 'script/plan.js', 'first += most', 'first += most + 1', 'RandomJobs'),
    ('the end of a lot belongs to both', 'script/tables.js', 'map((end, i) => [stations[i], end])', 'map((end, i) => [stations[i], end + 1])', 'RandomJobs'),
    ('what is outside the lots is left out', 'script/tables.js', 'outside: side.amounts.map((all, i) => all - together[i])', 'outside: side.amounts.map(() => 0)', 'RandomJobs'),
    ('overhangs before and after are exchanged', 'interface.json', '"barrier_plan_reply": ["number", "value", "before", "after"]', '"barrier_plan_reply": ["number", "value", "after", "before"]', 'RandomJobs KCases'),
    ('a refused hazard is left out and the rest is planned', 'script/plan.js', 'if (found.refusals.hazards.size) return found;', '', 'KCases RefusedFields'),
    ('runs stay when the job is refused', 'script/page.js', 'const {sides} = this.plan;\n        const row = (', 'const sides = this.plan.sides || this.old; this.old = sides;\n        const row = (', 'KCases RefusedFields'),
    ('the drawing is described as before when the job is refused', 'script/page.js', 'const {sides} = this.plan;\n        const counts', 'const sides = this.plan.sides || this.old; this.old = sides;\n        const counts', 'KCases RefusedFields'),
    ('quantities stay when the job is refused', 'script/page.js', "byId('quantities').hidden = !plan.sides;\n        if (!plan.sides) {\n            this.quantities.show([]);", 'if (!plan.sides) {', 'KCases RefusedFields'),
    ('the drawing keeps its barrier when the job is refused', 'script/page.js', "        if (!this.canDraw()) {", "        if (!this.plan.sides && this.canvas.drawing) return;\n        if (!this.canDraw()) {", 'KCases RefusedFields'),
    ('the corners of the hazard before are shown', 'script/chosen.js', 'page.planner.corners(plan.job, plan.bytes, chosen,', 'page.planner.corners(plan.job, plan.bytes, 0,', 'RandomJobs'),
    ('a kept state is returned to without the engine', 'script/plan.js', "this.engine.done('barrier_return', number);", '', 'TheDay'),
    ('keeping replaces nothing', 'script/plan.js', "        this.engine.done('barrier_keep', number);\n        this.stateRefusals.delete(number);", '        this.stateRefusals.delete(number);', 'TheDay'),
    ('a refusal marks the field after it', 'script/fields.js', 'if (refused.number === INTERFACE.numbers.BARRIER_HEADER_RANGE) return refused.value;', 'if (refused.number === INTERFACE.numbers.BARRIER_HEADER_RANGE) return refused.value + 1;', 'RefusedFields'),
    ('a name above 65535 is cut to 16 bits', 'script/fields.js', "const wide = key === 'name' && !found.wrong && found.value > INTERFACE.constants.BARRIER_NAME_MAX;", 'const wide = false;', 'RefusedFields'),
    ('the panel lengths are handed over in another order', 'script/page.js', 'const reply = this.planner.layout(sizes, rest, limit);', 'const reply = this.planner.layout(sizes.slice().reverse(), rest, limit);', 'Printed'),
    ('names are put in as markup', 'script/svg.js', '>${escaped(words)}</text>`', '>${words}</text>`', 'Hostile'),
    ('the text form forgets driving on the left', 'script/text.js', "if (job.left) rows.push('drives left');", '', 'InAndOut'),
    ('the address forgets the numbers of hazards', 'script/job.js', "parts.set('numbers',", "parts.set('number',", 'InAndOut'),
    ('names for a spreadsheet are not guarded', 'script/tables.js', "'=+-@'.includes(label[0])", "'=+@'.includes(label[1])", 'RandomJobs'),
    ('a refusal has other words', 'words.json', 'hazard # leaves the barrier no room to deflect"', 'hazard # leaves the barrier some room to deflect"', 'Languages RefusedFields'),
    ('the pointer shows the level of the other side', 'script/page.js', 'side: place.y >= 0 ? RIGHT : LEFT', 'side: place.y >= 0 ? LEFT : RIGHT', 'Many'),
    ('the arrow keys move a hazard on the wrong way', 'script/drag.js', 'ArrowLeft: [-perAlong, 0], ArrowRight: [perAlong, 0]', 'ArrowLeft: [perAlong, 0], ArrowRight: [-perAlong, 0]', 'Keyboard'),
    ('a field has no label', 'script/fields.js', "row.inputs[key].setAttribute('aria-label', said('hazards.field', said(words), name));", '', 'Keyboard'),
    ('the page is not stored', 'script/files.js', 'localStorage.setItem(STORED, JSON.stringify(kept));', '', 'InAndOut'),
    ('the policy lets connections through', 'build.py', "default-src 'none'; ", "default-src *; ", 'Hostile'),
    ('the module rounds an approach down', '../portable/barrier_engine.c', 'return (dividend + (divisor - 1u)) / divisor;', 'return dividend / divisor;', 'Printed'),
    ('the module raises to panels downwards', '../portable/barrier_engine.c', 'return ((length + (panel - 1u)) / panel) * panel;', 'return (length / panel) * panel;', 'RandomJobs'),
]


def build(folder, page):
    done = subprocess.run([sys.executable, '-B', 'web/build.py', str(page)], cwd=str(folder), stdout=subprocess.PIPE, stderr=subprocess.STDOUT, universal_newlines=True)
    if done.returncode != 0:
        raise SystemExit('web: a wrong page is not built: ' + done.stdout)


def found_by(page, tests):
    environment = {**os.environ, 'WEB_PAGE': str(page), 'WEB_QUICK': '1', 'WEB_JOBS': '40'}
    for test in tests.split():
        done = subprocess.run([sys.executable, '-B', 'tests/web/test_page.py', '-f', test], cwd=str(ROOT), env=environment, stdout=subprocess.PIPE, stderr=subprocess.STDOUT, universal_newlines=True)
        if done.returncode != 0:
            lines = [line for line in done.stdout.splitlines() if line.startswith(('FAIL:', 'ERROR:'))]
            return (lines[0] if lines else done.stdout.strip().splitlines()[-1])[:110]
    return None


def changed(folder, file, old, new):
    """Makes the fault in a copy; whether there is one."""
    path = folder / 'web' / file
    text = path.read_text(encoding='utf-8')
    wrong = text.replace(old, new, 1)
    path.write_text(wrong, encoding='utf-8')
    return wrong != text


def main():
    first, last = (int(sys.argv[1]), int(sys.argv[2])) if len(sys.argv) > 2 else (0, len(FAULTS))
    caught, missed = 0, []
    for what, file, old, new, tests in FAULTS[first:last]:
        with tempfile.TemporaryDirectory() as temporary:
            folder = pathlib.Path(temporary)
            for name in ('web', 'include', 'portable'):
                shutil.copytree(str(ROOT / name), str(folder / name))
            if not changed(folder, file, old, new):
                missed.append(what + ' (not made: its place is not there)')
                continue
            page = folder / 'wrong.html'
            build(folder, page)
            by = found_by(page, tests)
        if by is None:
            missed.append(what)
        else:
            caught += 1
            print('web: wrong page found: %s: %s' % (what, by), flush=True)
    for what in missed:
        print('web: NOT FOUND: ' + what, file=sys.stderr)
    print('web: %d wrong pages, %d found' % (caught + len(missed), caught))
    return 1 if missed else 0


if __name__ == '__main__':
    sys.exit(main())
