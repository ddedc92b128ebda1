"""The policy of a page: a browser uses what the page holds, and nothing that somebody has put into it or that lies elsewhere."""

from __future__ import annotations

import base64
import hashlib
import re
import unittest
from html.parser import HTMLParser

from si_history.page_policy import with_policy
from tests import test_browser
from tests.pages import example


class Held(HTMLParser):
    """The policy of a document, and the content of its styles and scripts, as a browser reads them."""

    def __init__(self, document: str) -> None:
        super().__init__()
        self.order: list[str] = []
        self.policies: list[str] = []
        self.held: dict[str, list[str]] = {"style": [], "script": []}
        self._open = ""
        self.feed(document)
        self.close()

    def handle_starttag(self, tag: str, attrs: list[tuple[str, str | None]]) -> None:
        self.order.append(tag)
        words = dict(attrs)
        if words.get("http-equiv") == "Content-Security-Policy":
            self.policies.append(words["content"] or "")
            self.order.append("policy")
        self._open = tag if tag in self.held else ""
        if self._open:
            self.held[tag].append("")

    def handle_data(self, data: str) -> None:
        if self._open:
            self.held[self._open][-1] += data

    def handle_endtag(self, tag: str) -> None:
        self._open = ""


def hash_of(content: str) -> str:
    return f"'sha256-{base64.b64encode(hashlib.sha256(content.encode()).digest()).decode()}'"


class PolicyTest(unittest.TestCase):
    def test_the_policy_allows_what_the_page_holds_and_nothing_else(self) -> None:
        for name in ("lost_update", "clean", "write_skew"):
            held = Held(example(name).page)
            with self.subTest(name):
                (policy,) = held.policies
                allowed = dict(part.split(" ", 1) for part in policy.split("; "))
                self.assertEqual(allowed.pop("default-src"), "'none'")
                self.assertEqual((allowed.pop("base-uri"), allowed.pop("form-action")), ("'none'", "'none'"))
                for kind, contents in held.held.items():
                    self.assertTrue(contents)
                    self.assertEqual(allowed.pop(f"{kind}-src").split(), [hash_of(content) for content in contents])
                self.assertEqual(allowed, {})
                self.assertLess(held.order.index("policy"), min(held.order.index("style"), held.order.index("script")))

    def test_no_element_has_a_style_or_a_script_of_its_own(self) -> None:
        self.assertEqual(re.findall(r"<[^>]*\s(?:style|on\w+)=", example("lost_update").page), [])


@unittest.skipUnless(test_browser.BROWSER, test_browser.NO_BROWSER)
class BrowserTest(unittest.TestCase):
    """What a browser does with a page that somebody has added to."""

    @classmethod
    def setUpClass(cls) -> None:
        test_browser.BrowserTest.setUpClass()

    def dom(self, page: str) -> str:
        return test_browser.BrowserTest.browse(page).stdout.decode("utf-8")

    def test_a_script_that_was_added_is_not_run(self) -> None:
        page = example("lost_update").page
        for added in ("<script>document.body.dataset.added = 'ran'</script>", "<img src='x' onerror=\"document.body.dataset.added='ran'\">",
                      "<script src=\"data:text/javascript,document.body.dataset.added='ran'\"></script>"):
            with self.subTest(added):
                dom = self.dom(page.replace("</main>", f"{added}</main>"))
                self.assertTrue("</html>" in dom)
                self.assertFalse('data-added="ran"' in dom, "it was run")

    def test_the_script_and_the_style_of_the_page_are_used(self) -> None:
        """The page's own script, with a line more that tells what it sees: the policy is made of what the page holds."""
        page = re.sub("<meta http-equiv=[^>]*>\n", "", example("lost_update").page, count=1)
        tell = "document.body.dataset.seen = getComputedStyle(document.querySelector('.timeline .ground')).fill;\n</script>"
        self.assertRegex(self.dom(with_policy(page.replace("</script>", tell))), 'data-seen="rgb\\((?!0, 0, 0\\))')


if __name__ == "__main__":
    unittest.main()
