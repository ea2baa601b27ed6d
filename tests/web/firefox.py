"""The page in Firefox: opened from disk, the printed example planned, a refused field, Spanish, a link. Where Firefox is not there, that is said."""
import os
import shutil
import sys

sys.path.insert(0, os.path.dirname(os.path.abspath(__file__)))

import browser  # noqa: E402
from browser import choose_in, read_text, shown, type_in  # noqa: E402
from library import k_cases, many_hazards, planned, text_of, Job  # noqa: E402


def same(found, wanted, what):
    if found != wanted:
        raise AssertionError('%s: %r, wanted %r' % (what, found, wanted))


def test(firefox):
    browser.ready(firefox)
    same(shown(firefox)['runs'], [['R1', '155.773', '210.000', '54.227', 'NC-3', 'Panels']], 'the printed example')
    choose_in(firefox, 'unit', 'mm')
    for name, header, hazards, wanted, before in k_cases():
        read_text(firefox, text_of(Job(header, hazards)))
        found = shown(firefox)
        if wanted == 5:
            same((found['state'], found['runs'], found['marked']), ('Not planned', [], ['near offset n of hazard 0']), name)
        else:
            same([row[1:3] for row in found['runs']], [[str(s), str(e)] for s, e, _ in wanted], name)
            same(found['overhangs'][0][1], str(before), name)
    type_in(firefox, 'road-forward', '0')
    same((shown(firefox)['state'], shown(firefox)['marked']), ('Not planned', ['road-forward']), 'a refused field')
    choose_in(firefox, 'language', 'es')
    same(shown(firefox)['state'], 'Sin planear', 'Spanish')
    choose_in(firefox, 'language', 'en')
    text = text_of(many_hazards())
    read_text(firefox, text)
    road, _ = planned(text)
    same(len(shown(firefox)['runs']), sum(len(side.runs) for side in road.sides), '256 hazards')
    link = firefox.execute_script('return barrierPage.fragmentOf(barrierPage.page.job)')
    browser.ready(firefox, fragment=link)
    same(len(shown(firefox)['runs']), sum(len(side.runs) for side in road.sides), 'a link')
    redraws = firefox.execute_script('''const {page} = barrierPage; page.beginDrag(); const hazard = page.job.hazards[120]; page.frames.length = 0;
        for (let i = 0; i < 60; i++) { page.job.hazards[120] = {...hazard, start: hazard.start + 100 * i, end: hazard.end + 100 * i}; page.dragged(); }
        page.endDrag(); return page.frames.slice().sort((a, b) => a - b);''')
    print('web: Firefox %s opens the page from disk; printed example, K cases, a refused field, Spanish, 256 hazards, a link; redraw of 256 hazards: median %.0f ms' % (
        firefox.execute_script('return navigator.userAgent').rsplit('/', 1)[-1], redraws[len(redraws) // 2]))


def main():
    if shutil.which(os.environ.get('FIREFOX', 'firefox-esr')) is None:
        print('web: NOT run: firefox-esr is not on this machine')
        return 0
    firefox = browser.Firefox()
    try:
        test(firefox)
        if len(sys.argv) > 1:
            firefox.save_screenshot(sys.argv[1])
    finally:
        firefox.quit()
    return 0


if __name__ == '__main__':
    sys.exit(main())
