"""The report in headless Chromium, if it is installed: it is completely drawn, on a screen, on a small one and on paper.

Without a browser these tests are skipped with the words of NO_BROWSER.
"""

from __future__ import annotations

import re
import shutil
import subprocess
import unittest
from pathlib import Path

from pespbench.report import Content, gather, page_of, read_places
from pespbench.report.drawing import drawn
from tests.common import LONG, Case
from tests.pages import NO_NODE, Page, region_bench

BROWSER = shutil.which("chromium") or shutil.which("chromium-browser") or shutil.which("google-chrome")
NO_BROWSER = "no browser was tried"
POLICY = re.compile('<meta http-equiv="Content-Security-Policy"[^>]*>')
# The question to a browser about a page that it has laid out; the answer becomes the page's title.
ASKED = """<script>
const seen = [...document.querySelectorAll('svg text')].filter(text => {
  const inner = text.getBoundingClientRect(), outer = text.ownerSVGElement.getBoundingClientRect();
  return inner.left < outer.left - 1 || inner.right > outer.right + 1 || inner.top < outer.top - 1 || inner.bottom > outer.bottom + 1;
});
const root = document.documentElement;
const empty = [...document.querySelectorAll('#printed :is(svg, table)')].filter(each => each.getBoundingClientRect().height < 2);
document.title = ['texts cut', seen.length, 'wider', root.scrollWidth - root.clientWidth, 'empty', empty.length].join(' ');
</script>"""


@unittest.skipUnless(BROWSER, NO_BROWSER)
class Browser(Case):
    """A region's report."""

    def setUp(self) -> None:
        super().setUp()
        self.content = self.told_of(2)
        self.text = page_of(self.content)
        self.path = self.folder / "report.html"
        self.path.write_text(self.text, encoding="utf-8")

    def told_of(self, seed: int) -> Content:
        """The texts of the report on a region."""
        with region_bench(self.folder, seed) as bench:
            return gather(bench, "A region", read_places(self.folder / "places"))

    def browse(self, page: Path, *words: str) -> str:
        """Runs the browser on a page, and returns its output."""
        quiet = ["--headless=new", "--no-sandbox", "--disable-gpu", "--hide-scrollbars", f"--user-data-dir={self.folder / 'profile'}"]
        command = [str(BROWSER), *quiet, *words, page.as_uri()]
        done = subprocess.run(command, capture_output=True, text=True, timeout=LONG, check=True)
        return done.stdout

    def told(self, text: str, width: int) -> str:
        """The browser's answer on a page at a width."""
        asked = self.folder / "asked.html"
        # The page's policy would let no other script run.
        asked.write_text(POLICY.sub("", text).replace("</body>", f"{ASKED}</body>"), encoding="utf-8")
        dom = self.browse(asked, f"--window-size={width},1400", "--dump-dom")
        found = re.search("<title>(.*?)</title>", dom)
        assert found
        return found[1]

    def test_laid_out(self) -> None:
        # In the region of seed 4 the name of a station is the leftmost of all.
        for seed, width in ((2, 1240), (2, 700), (4, 1240)):
            with self.subTest(seed=seed, width=width):
                self.assertEqual(self.told(page_of(self.told_of(seed)), width), "texts cut 0 wider 0 empty 0")

    @unittest.skipUnless(shutil.which("node"), NO_NODE)
    def test_same_elements(self) -> None:
        """The browser draws the same as Node."""
        found = re.search('<div id="printed">(.*)</div>\\s*<script type', self.browse(self.path, "--dump-dom"), re.S)
        assert found
        read, wanted = Page(found[1]).root, Page(drawn("report", self.content)).root
        for attribute in ("data-event", "data-domain", "data-activity", "data-violated-activity", "data-violated-event"):
            texts = [(node.attributes[attribute], node.text) for node in wanted.all(attribute)]
            self.assertEqual([(node.attributes[attribute], node.text) for node in read.all(attribute)], texts)

    def test_screenshot(self) -> None:
        picture = self.folder / "report.png"
        self.browse(self.path, "--window-size=1240,1600", f"--screenshot={picture}")
        data = picture.read_bytes()
        self.assertEqual((data[:4], int.from_bytes(data[16:20], "big")), (b"\x89PNG", 1240))
        self.assertGreater(len(data), 50_000)

    def test_paper(self) -> None:
        paper = self.folder / "report.pdf"
        self.browse(self.path, "--no-pdf-header-footer", f"--print-to-pdf={paper}")
        pages = len(re.findall(rb"/Type\s*/Page\b", paper.read_bytes()))
        self.assertTrue(4 <= pages <= 14, f"{pages} pages")


if __name__ == "__main__":
    unittest.main()
