"""The page in a browser without a window: what a click does, how long it takes to open, and what the first screen shows."""

from __future__ import annotations

import re
import shutil
import subprocess
import tempfile
import time
import unittest
from pathlib import Path

from si_history.legend import Legend
from si_history.page_policy import with_policy
from tests.pages import LOST_UPDATE_HISTORY, Told, example, told
from tests.support import LONG_SECONDS
from tests.test_page import EVIL, bad_reads
from tests.test_report import LOST_UPDATE, lines, text_of

BROWSER = shutil.which("chromium") or shutil.which("chromium-browser")
NO_BROWSER = "left out: there is no browser chromium"
MOST_SECONDS = 2.0
TRIES = 3
"""A machine that does much else can be slow once."""


@unittest.skipUnless(BROWSER, NO_BROWSER)
class BrowserTest(unittest.TestCase):
    """The page in a browser without a window, asked for its elements when its script has run."""

    @classmethod
    def setUpClass(cls) -> None:
        """Leaves these tests out where the browser doesn't start, as in a closed-off room of a build machine."""
        page = "<!DOCTYPE html><html><body><script>document.body.append('run', 'ning')</script></body></html>"
        try:
            done = cls.browse(page)
        except (OSError, subprocess.TimeoutExpired) as fault:
            raise unittest.SkipTest(f"left out: the browser {BROWSER} doesn't start here: {fault}") from None
        if b"running" not in done.stdout:
            last = done.stderr.decode(errors="replace").strip().split("\n")[-1]
            raise unittest.SkipTest(f"left out: the browser {BROWSER} doesn't start here (status {done.returncode}: {last})")

    @staticmethod
    def browse(page: str, wanted: str = "--dump-dom") -> subprocess.CompletedProcess[bytes]:
        """Lets the browser read a page, run its scripts, and print its elements or what else is wanted."""
        with tempfile.TemporaryDirectory(ignore_cleanup_errors=True) as directory:
            path = Path(directory) / "page.html"
            path.write_text(page, "utf-8")
            return subprocess.run(
                [str(BROWSER), "--headless", "--no-sandbox", "--disable-gpu", f"--user-data-dir={directory}/profile",
                 *(("--virtual-time-budget=2000",) if wanted == "--dump-dom" else ()), "--window-size=1400,900", wanted, path.as_uri()],
                capture_output=True, timeout=LONG_SECONDS,
            )

    def dom(self, page: str, script: str = "") -> str:
        """The elements of the page, after a script of the test's own."""
        try:
            page = re.sub("<meta http-equiv=[^>]*>\n", "", page, count=1)
            done = self.browse(with_policy(page.replace("</body>", f"<script>{script}</script></body>")))
        except subprocess.TimeoutExpired:
            self.skipTest(f"left out: the browser {BROWSER} takes longer than {LONG_SECONDS:.0f} seconds here")
        return done.stdout.decode("utf-8")

    def drawn(self, dom: str) -> list[str]:
        """The lanes that are drawn."""
        return re.findall(r'<g class="lane \w+" id="lane-(\d+)"', re.sub("<template.*?</template>", "", dom, flags=re.DOTALL))

    def test_a_click_draws_the_finding_alone(self) -> None:
        """30 bad reads, of n and the aborted n + 30; the first is drawn, then the last, then the whole, then the last again."""
        script = """
          const lanes = () => [...document.querySelectorAll('#view .lane')].map((lane) => lane.dataset.transaction).join('+');
          const named = () => [...document.querySelectorAll('#view .is-named')].map((mark) => mark.dataset.place ?? mark.dataset.transaction).join('+');
          const buttons = [...document.querySelectorAll('button.finding')];
          const whole = document.getElementById('whole');
          const seen = [[lanes(), named()]];
          for (const button of [buttons.at(-1), whole, whole, buttons[0]]) { button.click(); seen.push([lanes(), named()]); }
          document.body.dataset.seen = seen.map((each) => each.join(':')).join(';');
        """
        dom = self.dom(bad_reads(30).page, script)
        (seen,) = re.findall('data-seen="(.*?)"', dom)
        self.assertEqual(seen.split(";"), ["31+1:1+2", "60+30:88+89", ":30+60", "60+30:88+89", "31+1:1+2"])
        self.assertEqual(self.drawn(dom), ["31", "1"])
        self.assertEqual(dom.count('class="finding" aria-pressed="true"'), 1)

    def test_a_small_history_is_drawn_whole(self) -> None:
        """The arrows are those of the first finding: where another one is chosen they are hidden."""
        script = """
          const buttons = [...document.querySelectorAll('button.finding')];
          const shown = () => getComputedStyle(document.querySelector('#view .links')).display !== 'none';
          const seen = [];
          for (const button of [buttons[0], buttons[1]]) {
            button.click();
            document.getElementById('whole').click();
            seen.push([document.querySelectorAll('#view .lane').length, document.querySelectorAll('#view .is-named').length, shown()]);
          }
          document.body.dataset.seen = seen.join(';');
        """
        dom = self.dom(example("aborted_read").page, script)
        self.assertEqual(re.findall('data-seen="(.*?)"', dom), ["2,2,true;2,2,false"])

    SEEN = """
      addEventListener('load', () => {
        const frame = document.getElementById('view').getBoundingClientRect();
        const isSeen = (part) => {
          const box = part.getBoundingClientRect();
          return box.width > 0 && box.top >= 0 && box.bottom <= innerHeight && box.left >= frame.left && box.right <= frame.right;
        };
        const named = [...document.querySelectorAll('#view .is-named')];
        const title = document.querySelector('button.finding').getBoundingClientRect();
        const empty = [...document.querySelectorAll('#view .lane')].filter((lane) => !lane.querySelector('.mark.is-named'));
        document.body.dataset.seen = [named.length, named.every(isSeen), empty.length, title.bottom <= innerHeight].join();
      });
    """

    def check_first_screen(self, found: Told, named: int) -> None:
        """The page opens in time, and its first screen has the first finding, and in each lane an event that it is about."""
        dom = self.dom(found.page, self.SEEN)
        self.assertEqual(re.findall('data-seen="(.*?)"', dom), [f"{named},true,0,true"])
        self.assertLess(min(self.seconds_for(found.page) for _ in range(TRIES)), MOST_SECONDS)

    def seconds_for(self, page: str) -> float:
        """How much longer the browser takes for a page than for an empty one."""
        return self.seconds(page) - self.seconds("<!DOCTYPE html><html><body>nothing</body></html>")

    def seconds(self, page: str) -> float:
        """How long the browser takes to start and to draw a page."""
        with tempfile.TemporaryDirectory() as directory:
            picture, began = Path(directory) / "page.png", time.monotonic()
            self.browse(page, f"--screenshot={picture}")
            took = time.monotonic() - began
            self.assertTrue(picture.is_file())
            return took

    def test_a_thousand_transactions(self) -> None:
        self.check_first_screen(bad_reads(500), 2)

    def test_a_hundred_thousand_events(self) -> None:
        """1,000 transactions of 98 writes each, and ten that read the version of the one before, which had not committed then."""
        events, reads = [], []
        for number in range(1, 1001):
            events += [f"w{number}[{number}]"] * 98
            if number % 100 == 0:
                events.append(f"r{number}[{number - 1}:{number - 1}]")
                reads.append(f"bad-read {len(events)} {number} {number - 1} saw {number - 1} due 0")
            if number % 100 != 99:
                events.append(f"c{number}")
            if number % 100 == 0:
                events.append(f"c{number - 1}")
        order = " ".join(str(n) for n in range(1, 1001))
        found = told(" ".join(events), lines(
            f"events {len(events)} committed 1000 aborted 0 open 0", "isolation broken", *reads, "ssi fail", "serializable yes", f"order {order}",
        ))
        self.assertEqual((len(found.findings), len(events)), (10, 99_010))
        self.check_first_screen(found, 2)

    def test_names_run_no_script(self) -> None:
        legend = Legend({1: EVIL, 2: "<img src=x onerror=\"document.title='evil'\">"}, {1: "'\"><b>"}, [1, 2, 3, 4, 5, 6])
        dom = self.dom(told(LOST_UPDATE_HISTORY, text_of(LOST_UPDATE), legend).page)
        self.assertIn("<title>Audit of h</title>", dom)
        self.assertNotIn("<img", dom)
        self.assertEqual(dom.count("<b>"), 0)


if __name__ == "__main__":
    unittest.main()
