"""Pages in a browser: headless Chromium, where there is one."""

import json
import os
import re
import shutil
import subprocess

from library import runs, supervised
from pages.bundles import Bundle

WIDTHS = (400, 1100, 1400)
# What is wrong with a page: it is a script, so it runs only if the page's policy is taken away.
PROBE = """<script>
document.querySelectorAll('details').forEach(it => it.open = true);
const wide = [...document.querySelectorAll('body *')].filter(it => !it.closest('.scroll, pre, svg') &&
  it.getBoundingClientRect().right > innerWidth + 1).map(it => it.tagName + '.' + it.className);
const hatched = [...document.querySelectorAll('rect.xb')].filter(it => !document.getElementById(
  it.getAttribute('fill').slice(5, -1))).length;
document.title = JSON.stringify({scripts: document.scripts.length, images: document.images.length,
  owned: window.owned || 0, wide: wide, scrolls: document.documentElement.scrollWidth > innerWidth, width: innerWidth,
  missing: hatched});
</script>"""


def chromium():
    found = shutil.which("chromium") or shutil.which("google-chrome")
    if found is None:
        raise runs.LeftOut("there is no chromium")
    return found


def opened(page, width, *more):
    """What Chromium prints of a page in a file, on a screen of this width."""
    runs.write("page.html", page.encode())
    words = [chromium(), "--headless", "--no-sandbox", "--disable-gpu", f"--window-size={width},900",
             f"--user-data-dir={os.getcwd()}/profile", *more, f"file://{os.getcwd()}/page.html"]
    done = supervised.run(words, stdin=subprocess.DEVNULL, stdout=subprocess.PIPE, stderr=subprocess.DEVNULL, check=True)
    return done.stdout.decode("utf-8", "replace")


def title(page, width):
    found = re.search("<title>(.*?)</title>", opened(page, width, "--dump-dom"), re.DOTALL)
    return found[1].replace("&quot;", '"').replace("&amp;", "&")


def browser(_, tally, __):
    """A hostile page in Chromium: no script of it runs and no image loads even without its policy, nothing is wider
    than the screen, each x is hatched, and with its policy no script runs at all. It prints."""
    chromium()
    page = Bundle().each_kind().page()
    open_page = re.sub(r"<meta http-equiv[^>]*>", "", page).replace("</body>", PROBE + "</body>")
    tally.check("the policy is gone", "default-src" not in open_page)
    for width in WIDTHS:
        seen = json.loads(title(open_page, width))
        shown = seen.pop("width")
        tally.check(f"{width}: the width of the screen", abs(shown - max(width, 400)) <= 100, shown)
        tally.compare(f"{width}: nothing is owned, and nothing too wide", seen,
                      {"scripts": 1, "images": 0, "owned": 0, "wide": [], "scrolls": False, "missing": 0})
    closed = page.replace("</body>", "<script>document.title = 'owned'</script><img src=page.html></body>")
    tally.check("with its policy no script runs", title(closed, 1100) != "owned")
    opened(page, 1100, "--print-to-pdf=page.pdf", "--no-pdf-header-footer")
    tally.check("it prints", runs.contents("page.pdf").startswith(b"%PDF"))
