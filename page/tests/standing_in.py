"""The page with another module than its own, as far as `tune` goes: one that knows it, with answers that are given, or
one that does not. So trials of either form are the same whatever the module knows."""
import json
import pathlib
import urllib.parse

from driving import Page

# A worker that answers `help tune` with a status, and `tune` as the words and the program say.
STAND_IN = """
const answered = self.onmessage;
self.onmessage = (event) => {
  const { id, words, files } = event.data, tell = (status, text) => self.postMessage({ id, status, text });
  if (words?.join(' ') === 'help tune') tell(%s, '');
  else if (words?.[0] === 'tune' && /mitigate \\(\\d+,/.test(files['program.mit'])) tell(0, %s);
  else if (words?.[0] === 'tune') tell(1, `tune ${words.at(-1)}: its estimate is no number\\n`);
  else answered(event);
};
"""


def standing_in(page, status, told=""):
    """The page whose worker answers `help tune` with a status, and `tune` with a text, open in the same browser."""
    plain = pathlib.Path(urllib.parse.unquote(urllib.parse.urlsplit(page.address).path)).read_text(encoding="utf-8")
    begin = plain.index('<script type="text/plain" id="worker-text">')
    end = plain.index("</script>", begin)
    other = page.browser.folder / f"stand-in-{status}.html"
    other.write_text(plain[:end] + STAND_IN % (status, json.dumps(told)) + plain[end:], encoding="utf-8")
    other_page = Page(page.browser, other.as_uri())
    other_page.open()
    return other_page


def with_tune(told, trial):
    """A trial on a page whose module knows `tune`, and answers so."""

    def tried(page):
        trial(standing_in(page, 0, told))
        page.open()

    tried.__name__ = trial.__name__
    return tried


def without_tune(trial):
    """A trial on a page whose module does not know `tune`, and which tries predictions in its place."""

    def tried(page):
        trial(standing_in(page, 4))
        page.open()

    tried.__name__ = trial.__name__
    return tried
