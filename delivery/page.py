"""The page that plans in a browser, as a delivery has it: what it was made from, and whether it is what web/ makes.

Its bytes depend on the compiler of the module in it, so CHANGELOG.md has no checksum of it. What can be compared everywhere: the page is, byte for byte,
what the sources in web/ make with the module that is in it. Where the compiler is there, the module is built again too. Tested and not proved.
"""
import base64
import importlib.util
import re

from refused import need

PAGE = 'web/barrier.html'
BUILT_AT = 'target/web/barrier.html'


def builder():
    spec = importlib.util.spec_from_file_location('web_build', 'web/build.py')
    found = importlib.util.module_from_spec(spec)
    spec.loader.exec_module(found)
    return found


def made_by(page):
    """The module's bytes, and the compiler that the page names."""
    text = page.decode('utf-8', 'replace')
    module = re.search(r'<script type="text/plain" id="module">([A-Za-z0-9+/=]*)</script>', text)
    line = re.search(r'<meta name="barrier-module" content="(.*); SHA-256 [0-9a-f]{64}">', text)
    need(module and line, '%s is not the page that web/build.py makes', PAGE)
    return base64.b64decode(module.group(1)), line.group(1)


def from_sources(page):
    """The page that the sources here make with the module of this one."""
    return builder().built(*made_by(page))


def built_again():
    """The page as this machine builds it, and the compiler; nothing where the tools are not there."""
    build = builder()
    try:
        module, compiler = build.compiled()
    except build.Refused as error:
        return None, str(error)
    return build.built(module, compiler), compiler
