"""The checks of tools/test on the page for an auditor: what it has, that it fetches and runs nothing, and how a browser takes it."""

import html.parser
import json
import os
import re
import shutil

import check_global
from checking import Skip, run, want
from guarded_clones import MAIN, another

BROWSERS = ("chromium", "chromium-browser", "google-chrome")
# A name of a branch that would be part of a page, if it were let.
ODD = "x<script>document.title=1</script>&amp;"


class Page(html.parser.HTMLParser):
    """The tables of a page, as the texts of their cells, and whatever would run or fetch something."""

    def __init__(self, text):
        super().__init__()
        self.tables, self.outside, self.in_cell = {}, [], False
        self.feed(text)

    def handle_starttag(self, tag, attrs):
        if tag in ("script", "img", "link", "iframe", "object") or any(name in ("src", "href") or name.startswith("on") for name, _ in attrs):
            self.outside.append(tag)
        if tag == "table":
            self.rows = self.tables.setdefault(dict(attrs)["class"], [])
        elif tag == "tr":
            self.rows.append([])
        elif tag in ("td", "th"):
            self.rows[-1].append("")
        self.in_cell = self.in_cell and tag not in ("h2", "table") or tag in ("td", "th")

    def handle_endtag(self, tag):
        self.in_cell = self.in_cell and tag not in ("td", "th")

    def handle_data(self, data):
        if self.in_cell:
            self.rows[-1][-1] += data


def reported(repositories, name):
    """Clones with an approval, a violation that is skipped and an odd name, and the report on them."""
    clones = another(repositories, name)
    clones.commit("bob")
    clones.gittuf("bob", "approve", "main", "--anyway")
    clones.gittuf("bob", "record", "main")
    clones.gittuf("bob", "push")
    clones.clone("mallory")
    clones.git("branch", ODD, who="mallory")
    clones.gittuf("mallory", "record", ODD)
    clones.commit("mallory")
    clones.gittuf("mallory", "record", "main", "--anyway")
    clones.gittuf("mallory", "skip", "6", "--anyway")
    path = clones.path("report.html")
    clones.gittuf("mallory", "report", "-o", path, status=1)
    with open(path, encoding="utf-8") as file:
        return clones, path, file.read()


def tells_all(repositories):
    """the report has each verdict with the rule and who is missing, and each entry with who signed and approved it, and runs and fetches nothing"""
    clones, _, text = reported(repositories, "reported")
    page = Page(text)
    want(page.outside, [], "what the page would run or fetch")
    want("default-src 'none'" in text, True, "whether the page forbids it too")
    verdicts = {it[0]: it[1:] for it in page.tables["verdicts"][1:]}
    want(set(verdicts), {"refs/gittuf/policy", "refs/gittuf/attestations", "main", ODD}, "what is judged")
    want((verdicts["main"][0], verdicts[ODD][0]), ("violation", "accepted"), "the verdicts")
    for part in ("git gittuf recover main", "rule main wants 1 of alice, bob: missing are alice, bob"):
        want(part in verdicts["main"][1], True, f"whether it says {part}: {verdicts['main'][1]}")
    want(f"To lead out of it, skip 6, and record the files of {clones.tip('bob')[:12]}." in verdicts["main"][1], True, "whether it says the way out")
    want("No rule protects " in verdicts[ODD][1], True, f"whether it says what no rule protects: {verdicts[ODD]}")
    signed = {it[0]: it[1:3] for it in page.tables["people"][1:]}
    key = clones.gittuf("mallory", "key", "--id").decode()[:12]
    want(signed, {"alice": ["2", "0"], "bob": ["2", "1"], f"the key {key}": ["3", "0"]}, "who signed how much")
    want(re.findall(r'<i style="left:[0-9.]+%">(\d+)</i>', text), ["6"], "which violations are marked below the policies")
    want(clones.tip("mallory", "refs/gittuf/reference-state-log") in text, True, "whether it says the last entry")
    entries = page.tables["log"][1:]
    want([it[0] for it in entries], [str(it) for it in range(1, 8)], "the entries")
    want([it[2] for it in entries][:4], ["alice", "alice", "bob", "bob"], "who signed the first four")
    want([it[3] for it in entries], ["", "", "", "bob", "", "", ""], "who approved")
    logged = [json.loads(it).get("approved") for it in clones.gittuf("mallory", "log", "--json").splitlines()]
    want(logged, [[], [], [], ["bob"], [], [], None], "who approved by the log's lines")
    want(b"\n  by bob, approved by bob, " in clones.gittuf("mallory", "log", "-v"), True, "whether the log says it in words")
    want(f"refs/heads/{ODD}" in entries[4][4], True, f"how a name is shown: {entries[4]}")
    want([it[4].rpartition(", and ")[2] for it in entries[3:6:2]], [entries[3][4], entries[5][4]], "what a stranger's skip skips")


def is_read_by_a_browser(repositories):
    """a browser reads the report as it is meant, shows it at both widths, and prints it, where one is here"""
    browser = next((it for it in map(shutil.which, BROWSERS) if it), None)
    if not browser:
        raise Skip("no browser is here")
    clones, path, text = reported(repositories, "browsed")
    # It keeps what it likes in a folder of its own.
    words = ("env", f"HOME={clones.folder}", browser, "--headless", "--no-sandbox", "--disable-gpu", f"--user-data-dir={clones.path('browser')}")
    status, shown, _ = run(*words, "--dump-dom", f"file://{path}")
    if status:
        raise Skip(f"{os.path.basename(browser)} does not run here")
    want(Page(shown.decode()).tables, Page(text).tables, "the tables as the browser has them")
    for width in (400, 1280):
        picture = clones.path(f"{width}.png")
        want(run(*words, f"--window-size={width},1000", f"--screenshot={picture}", f"file://{path}")[0], 0, "the status of a picture")
        want(os.path.getsize(picture) > 10_000, True, "whether something is on it")
    printed = clones.path("report.pdf")
    want(run(*words, f"--print-to-pdf={printed}", f"file://{path}")[0], 0, "the status of printing")
    with open(printed, "rb") as file:
        pages = len(re.findall(rb"/Type\s*/Page\b", file.read()))
    want(1 <= pages <= 3, True, f"whether {pages} pages are few")
    return f"{pages} pages; a verdict on {MAIN} among {len(Page(text).tables['verdicts']) - 1}"


def tells_what_does_not_fit(repositories):
    """the report says of a remote's log that went back, and of objects that Git shows in the place of others, before any verdict"""
    clones = another(repositories, "report beside")
    clones.gittuf("bob", "verify", "main")
    clones.git("update-ref", "refs/gittuf/reference-state-log", clones.tip("bob", "refs/gittuf/reference-state-log~1"), who="server.git")
    clones.git("fetch", "--quiet", who="bob")
    clones.git("replace", clones.tip("bob"), clones.commit("bob"), who="bob")
    clones.git("reset", "--quiet", "--hard", "main~1", who="bob")
    text = clones.gittuf("bob", "report", status=3).decode()
    for part in ("of origin went back from entry 2 to entry 1", "Git shows other objects here"):
        want(part in text.partition("<h2>")[0], True, f"whether it says {part}: {text[:3000]}")


def tells_global_verdicts(repositories):
    """the report has the verdict by global rules behind the other, its entry is marked, and one that is broken ends it with 1 as it ends verify"""
    clones = another(repositories, "report of global rules")
    check_global.put_in_force(clones, check_global.KEEP)
    clones.commit("alice")
    clones.gittuf("alice", "record", "main")
    kept = {it[3]: it[1:3] for it in Page(clones.gittuf("alice", "report").decode()).tables["verdicts"][1:]}
    want(kept.get(f"global-kept {MAIN} 2 entries", [""])[0], "global-kept", f"the verdict of a branch that goes on: {kept}")
    clones.git("reset", "--quiet", "--hard", "HEAD~1", who="alice")
    clones.gittuf("alice", "record", "main", "--anyway")
    text = clones.gittuf("alice", "report", status=1).decode()
    rows = [it[1:] for it in Page(text).tables["verdicts"][1:] if it[0] == "main"]
    want([it[2] for it in rows], [f"accepted {MAIN} 3 entries", f"global-violation {MAIN} 5 rewound keep"], "the lines of one that goes back")
    want("global rule keep lets it only go on" in rows[1][1], True, f"whether it says which rule: {rows[1]}")
    want(re.findall(r'<i style="left:[0-9.]+%">(\d+)</i>', text), ["5"], "what is marked below the policies")


CHECKS = (tells_all, tells_what_does_not_fit, tells_global_verdicts, is_read_by_a_browser)
