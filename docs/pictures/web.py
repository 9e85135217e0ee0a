#!/usr/bin/env python3
"""Takes the picture of the page, docs/pictures/web.png, in Chromium: in the middle of a transfer
over a serial port of 115200 bits a second. The port is one of the tests' own; its line has that
pace. The picture is not taken where the page tells a rate that such a line cannot have.

usage: web.py [PICTURE]
The page is that of out/web, as `make web` builds it.
"""

import os
import re
import sys

sys.dont_write_bytecode = True
HERE = os.path.dirname(os.path.abspath(__file__))
sys.path.insert(0, os.path.join(HERE, "..", "..", "tests"))

from support.chromium import Chromium
from support.page import PAGE, begin, click, firmware, text, until_share
from support.program import folders, write_files
from support.serial_port import RATE, SERIAL, at_serial_port
from support.web_peers import Loader, Paced

SHARE = 0.4


def main():
    path = sys.argv[1] if sys.argv[1:] else os.path.join(HERE, "web.png")
    browser = Chromium()
    try:
        with folders() as (here, there):
            page, loader = browser.page(PAGE, SERIAL), Loader(there, Paced(RATE))
            at_serial_port(page, loader.bridge.address)
            begin(page, write_files(here, firmware()), "loady")
            until_share(page, SHARE)
            told = text(page, "#figures")
            rate = float(re.search(r"([\d.]+) KiB/s", told)[1]) * 1024
            if not 0.8 * RATE < rate <= RATE:
                sys.exit("web.py: the page tells %s: this machine is too busy" % told)
            page.picture(path)
            click(page, "#cancel")
            loader.close()
    finally:
        browser.close()
    print("%s: %s" % (path, told))


main()
