"""Pictures of the page, to be looked at: desk and phone, English and Spanish, refused, 256 hazards, paper.

    screenshots.py FOLDER
"""
import base64
import os
import pathlib
import shutil
import subprocess
import sys
import time

sys.path.insert(0, os.path.dirname(os.path.abspath(__file__)))

import browser  # noqa: E402
from browser import choose_in, read_text, type_in  # noqa: E402
from library import ROOT, many_hazards, text_of  # noqa: E402


def picture(driver, path, width, mobile=False, most=6000):
    """The whole page, as high as it is."""
    driver.execute_cdp_cmd('Emulation.setDeviceMetricsOverride', {'width': width, 'height': 900, 'deviceScaleFactor': 1, 'mobile': mobile})
    time.sleep(0.4)
    height = min(most, driver.execute_script('return document.documentElement.scrollHeight'))
    driver.execute_cdp_cmd('Emulation.setDeviceMetricsOverride', {'width': width, 'height': height, 'deviceScaleFactor': 1, 'mobile': mobile})
    time.sleep(0.5)
    path.write_bytes(base64.b64decode(driver.execute_cdp_cmd('Page.captureScreenshot', {'format': 'png'})['data']))


def on_paper(driver, path):
    pdf = base64.b64decode(driver.execute_cdp_cmd('Page.printToPDF', {'preferCSSPageSize': True, 'printBackground': True})['data'])
    path.write_bytes(pdf)
    if shutil.which('pdftoppm'):
        subprocess.run(['pdftoppm', '-r', '60', '-png', str(path), str(path.with_suffix(''))], check=True)


def main(folder):
    out = pathlib.Path(folder)
    out.mkdir(parents=True, exist_ok=True)
    two_sided = (ROOT / 'examples' / 'jobs' / 'two-sided.job').read_text(encoding='utf-8')
    driver = browser.chromium()
    try:
        browser.fresh(driver)
        picture(driver, out / 'desk-english.png', 1400)
        read_text(driver, two_sided)
        type_in(driver, 'lots', '0 500 1000 1500 2000')
        type_in(driver, 'longest', '40')
        type_in(driver, 'level-station', '1+250')
        driver.execute_script("document.querySelectorAll('#states button')[0].click()")
        time.sleep(0.5)
        picture(driver, out / 'desk-two-sided.png', 1400)
        on_paper(driver, out / 'sheet-a3.pdf')
        choose_in(driver, 'paper', 'a4')
        type_in(driver, 'sheet', '700')
        on_paper(driver, out / 'sheet-a4.pdf')
        type_in(driver, 'sheet', '')
        choose_in(driver, 'language', 'es')
        time.sleep(0.5)
        picture(driver, out / 'desk-spanish.png', 1400)
        picture(driver, out / 'phone-spanish.png', 390, mobile=True)
        choose_in(driver, 'language', 'en')
        picture(driver, out / 'phone-english.png', 390, mobile=True)
        type_in(driver, '#hazards tbody tr input.number:nth-of-type(1)', '0')
        type_in(driver, 'road-zone', '31')
        picture(driver, out / 'desk-refused-field.png', 1400)
        picture(driver, out / 'phone-refused-field.png', 390, mobile=True)
        browser.fresh(driver)
        read_text(driver, two_sided.replace('5000  9000', '3999  9000').replace('6000  12000', '6000  5999'))
        picture(driver, out / 'desk-refused-hazard.png', 1400)
        browser.fresh(driver)
        read_text(driver, (ROOT / 'examples' / 'jobs' / 'overhang.job').read_text(encoding='utf-8'))
        picture(driver, out / 'desk-overhang.png', 1400)
        read_text(driver, text_of(many_hazards()))
        time.sleep(0.6)
        picture(driver, out / 'desk-256.png', 1400)
        on_paper(driver, out / 'sheet-256.pdf')
        driver.execute_script("for (let i = 0; i < 5; i++) document.getElementById('zoom-in').click()")
        picture(driver, out / 'desk-256-zoomed.png', 1400)
        svg = driver.execute_script('return barrierPage.page.svgDocument()')
        (out / 'drawing.svg').write_text(svg, encoding='utf-8')
    finally:
        driver.quit()
    print('web: %d pictures in %s' % (len(list(out.glob('*.png'))), out))


if __name__ == '__main__':
    main(sys.argv[1])
