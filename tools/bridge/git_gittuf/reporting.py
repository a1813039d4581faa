"""One page of HTML for an auditor: the verdicts, the log with who signed it, the policy in words, and what this rests on."""

import functools
import os
import subprocess
import types

from git_gittuf import accounts, asking, following, inspecting, listing, looking, names, otherwise, policies, policy_lines, program, sentences, trust, verifying
from git_gittuf import withheld
from git_gittuf.global_verdicts import GlobalVerdicts
from git_gittuf.repository import LOG, ZEROS, Stopped
from git_gittuf.shown import plain

STYLE = """
:root{color-scheme:light}
body{font:16px/1.5 system-ui,sans-serif;margin:0 auto;max-width:70rem;padding:1rem;color:#1b1b1b;background:#fff;overflow-wrap:break-word}
h1{font-size:1.5rem;line-height:1.25}h2{font-size:1.15rem;margin-top:2rem}code{font:.85em ui-monospace,monospace;overflow-wrap:anywhere}
table{border-collapse:collapse;width:100%;table-layout:fixed}th,td{text-align:left;padding:.25rem .5rem;border-bottom:1px solid #ddd;vertical-align:top}
.verdicts th:nth-child(1){width:12rem}.verdicts th:nth-child(2){width:6.5rem}.verdicts th:nth-child(4){width:16rem}
.log th:nth-child(1){width:4.5rem}.log th:nth-child(2){width:12rem}.log th:nth-child(3){width:9rem}.log th:nth-child(4){width:9rem}
.log th:nth-child(6){width:8.5rem}
.log td:nth-child(2){white-space:nowrap}.good{color:#0a6b2d}.bad{color:#a01010;font-weight:600}li{margin:.2rem 0}
.marks{position:relative;height:1.4rem;font-size:.8rem}.marks i{position:absolute;border-left:3px solid #a01010;padding-left:.15rem;color:#a01010}
.people th:nth-child(n+2){width:10rem}.people th:nth-child(n+4){width:13rem}.people td:nth-child(n+4){white-space:nowrap}.line{display:flex;font-size:.8rem}
.line span{min-width:0;overflow:hidden;padding:.2rem;print-color-adjust:exact;-webkit-print-color-adjust:exact}
@media screen and (max-width:45rem){
body{font-size:15px;padding:.6rem}table,tbody,tr,td{display:block}thead{display:none}tr{padding:.4rem 0;border-bottom:1px solid #bbb}
td{border:0;padding:.05rem 0}td:empty{display:none}.log td:nth-child(1){font-weight:600}.log td:nth-child(1)::before{content:"Entry "}
.log td:nth-child(3)::before{content:"signed by "}.log td:nth-child(4)::before{content:"approved by "}
.people td:nth-child(1){font-weight:600}.people td:nth-child(2)::before{content:"entries signed: "}
.people td:nth-child(3)::before{content:"changes approved: "}.people td:nth-child(4)::before{content:"first "}
.people td:nth-child(5)::before{content:"last "}.log td:nth-child(6)::before{content:"id "}.verdicts td:nth-child(1){font-weight:600}}
@media print{@page{margin:14mm}html{font-size:10px}body{font-size:1rem;line-height:1.35;max-width:none;padding:0}
th,td{padding:.1rem .4rem}tr{break-inside:avoid}h2{break-after:avoid}.log th:nth-child(2){width:13rem}}
"""
# A page that runs and fetches nothing, whatever is in it.
SEALED = "default-src 'none'; style-src 'unsafe-inline'"
COLOURS = ("#cfe3f7", "#d8efd3", "#f7e6c4", "#e7d9f2")
EPOCHS = "<p>Each stretch of the log begins at the entry that brought its policy into force. An entry that a verdict names is marked below.</p>"


@functools.lru_cache(maxsize=1 << 12)
def text(it):
    # Few calls want it, and it takes long to load.
    import html

    return html.escape(plain(str(it)))


def table(name, heads, rows):
    """A table of cells that are HTML already."""
    head = "".join(f"<th>{it}</th>" for it in heads)
    body = "".join(f"<tr><td>{'</td><td>'.join(map(str, row))}</td></tr>\n" for row in rows)
    return f'<table class="{name}"><thead><tr>{head}</tr></thead><tbody>\n{body}</tbody></table>'


def marks(count, numbers):
    """The entries of these numbers on a line of time below."""
    spans = [f'<i style="left:{100 * (it - 1) / count:.2f}%">{it}</i>' for it in sorted(set(numbers))]
    return f'<div class="marks" role="img" aria-label="the entries of violations">{"".join(spans)}</div>' if spans else ""


def picture(count, epochs):
    """The log as a line of time from its first entry to its last, a colour for each policy in force, from the entry that is named on."""
    parts, starts = [], [number for number, _ in epochs]
    for at, start in enumerate(starts):
        end = starts[at + 1] if at + 1 < len(starts) else count + 1
        parts.append(f'<span style="flex:{end - start} 1 0;background:{COLOURS[at % len(COLOURS)]}">{start}</span>')
    before = f'<span style="flex:{starts[0] - 1} 1 0">none</span>' if starts[0] > 1 else ""
    return f'<div class="line" role="img" aria-label="the policies in force over the log">{before}{"".join(parts)}</div>'


def said_of(work, it, line, account):
    """The sentences on a verdict, and on the way out of a violation."""
    said, found = [verifying.of_line(work, it, line)], looking.FAULT.fullmatch(line)
    if line.startswith("accepted ") and not line.endswith(" 0 entries"):
        said[0] += verifying.of_unprotected(work, it.name)
    if found and found[3] in ("ref-rule", "path-rule"):
        said += [*accounts.of_violation(account, it.name, line), way_out_of(account, it.name, int(found[2]))]
    return said


def way_out_of(account, name, number):
    """What leads out of a violation: the entries to skip, and whose files are wanted."""
    own = [it for it, *_ in account.changes.get(name, [])]
    before = [it[3][1] for it in own if it[0] < number and not account.skipped_by(it)]
    wanted = before[-1].decode() if before else ZEROS.decode()
    numbers = ", ".join(str(it[0]) for it in own if it[0] >= number and not account.skipped_by(it))
    skip = f"skip {numbers}, and record" if numbers else "record"
    return f"To lead out of it, {skip} {f'the files of {wanted[:12]}' if int(wanted, 16) else 'that it is gone, as before it'}."


def told_of(work, it, root, by_global_rules):
    """The verdicts on a reference, by the rules and by those that hold whatever the rules delegate: the word, the status and the program's line."""
    status, printed = verifying.verdict(work, it, root)
    yield "verify-ref", status, os.fsdecode(printed).strip()
    status, printed = by_global_rules.of(it.name) if status < 2 else (0, b"")
    if status or printed:
        yield "verify-global", status, os.fsdecode(printed).strip()


def verdict_row(work, it, status, line, said):
    """A verdict on a reference, as the cells of a row."""
    kind = f'<span class="{"bad" if status else "good"}">{text(line.split(" ")[0] or "no verdict")}</span>'
    shown = f"{names.word_here(work.repository, it.name)}{f' of {it.remote}' if it.remote else ''}"
    return [text(shown), kind, "<br>".join(map(text, said)), f"<code>{text(line)}</code>"]


def verdicts(work, words, root, account):
    """Each reference that is judged, with its verdicts, as rows, the entries of violations, and the greatest status."""
    asked, rows, bad, worst = types.SimpleNamespace(branches=[], remote=words.remote), [], [], 0
    meant = verifying.meant_by(work, asked)
    asking.ahead(work, [verifying.asked_for(work, it, root) for it in meant])
    by_global_rules = GlobalVerdicts(work, root)
    for it in meant:
        for word, status, line in told_of(work, it, root, by_global_rules):
            rows.append(verdict_row(work, it, status, line, said_of(work, it, line, account) if line else [sentences.of_status(word, status)]))
            bad += [int(line.split(" ")[2])] if line.startswith(("violation ", "global-violation ")) else []
            worst = max(worst, status)
    for it in verifying.unspeakable(work):
        rows.append([text(names.short(it)), '<span class="bad">no verdict</span>', "No log can speak of it, and a rule may protect it.", ""])
        worst = max(worst, 1)
    return rows, bad, worst


def warnings(work):
    """What is to be known beside the verdicts: of logs that do not fit, and of what is shown here otherwise, each a sentence."""
    return [following.sentence(work, *it) for it in work.unfit] + otherwise.of_all(work, [])


def people_rows(account, times):
    """Who signed how many entries and approved how many changes, and when first and last, as rows."""
    found, rows = account.found, {}
    for (number, entry_id, *_), when in zip(found.entries, times):
        signer = found.people_at(number).shown(found.keys[entry_id])
        for at, who in [(0, signer), *((1, plain(it)) for it in account.approvals.get(number, []))]:
            row = rows.setdefault(who, [0, 0, []])
            row[at] += 1
            row[2] += [when] if when else []
    return [[text(who), *counts, min(when, default=""), max(when, default="")] for who, (*counts, when) in rows.items()]


def row_of(entry, account):
    """An entry with who signed and approved it, and what it says."""
    told, people = account.found.of(entry), account.found.people_at(entry[0])
    if told["kind"] == "ref":
        stands = "is gone" if told["target"] == ZEROS.decode() else f"stands at <code>{told['target'][:12]}</code>"
        by = account.skipped_by(entry)
        what = f"{text(told['ref'])} {stands}{f', and entry {by} says skip' if by else ''}"
    else:
        what = f"{told['kind']} of {', '.join(text(it) for it in told['entries'])}{': ' + text(told['message']) if told['message'] else ''}"
    approved = ", ".join(map(text, account.approvals.get(entry[0], [])))
    return [told["number"], text(told["time"] or ""), text(people.shown(told["key"])), approved, what, f"<code>{told['id'][:12]}</code>"]


def about_tool():
    ran = subprocess.run((program.LAUNCHER, "--version"), capture_output=True, check=False)
    return ran.stdout.decode(errors="replace").strip()


def page(work, words, root, source):
    found = listing.Listing(work, work.asked("log"))
    account = accounts.Accounts(work, found)
    rows, bad, worst = verdicts(work, words, root, account)
    entries = [row_of(it, account) for it in found.entries]
    named = text(os.path.basename(work.repository.top or work.repository.git_dir))
    seen = "the first policy that was seen here, which nobody vouched for"
    rests = {trust.GIVEN: "the ids that were given", "gittuf.root": "the setting gittuf.root"}.get(source, seen)
    by_whom = "; gittuf-inspect tells several in one pass, by the same proved crates" if inspecting.place() else ""
    last = f", the last of them <code>{found.entries[-1][1].decode()}</code>" if entries else ""
    parts = [
        f"<h1>{named}: what is recorded, and whether it was lawful</h1>",
        f"<p>{len(entries)} entries{last}. The first policy is held to {rests}: <code>{text(root or 'none')}</code></p>",
        *(f'<p class="bad">{text(it)}.</p>' for it in warnings(work)),
        "<h2>Verdicts</h2>",
        table("verdicts", ("Branch or tag", "Verdict", "In words", "The program's line"), rows),
        "<h2>The policies in force</h2>",
        EPOCHS + picture(len(entries), found.epochs) + marks(len(entries), bad) if found.epochs else "<p>None.</p>",
        "<h2>The policy that is in force now</h2>",
        "<ul>" + "".join(f"<li>{text(it)}</li>" for it in policy_lines.of_policy(policies.in_force(work)) or ["None."]) + "</ul>",
        "<h2>Who signed</h2>",
        table("people", ("Who", "Entries signed", "Changes approved", "First", "Last"), people_rows(account, [it[1] for it in entries])),
        "<h2>The log</h2>",
        table("log", ("Entry", "Time", "Signed by", "Approved by", "What", "Id"), entries),
        "<h2>What this rests on</h2>",
        f"<p>The verdicts are those of the program, which is proved to give them{by_whom}: {text(about_tool())}. This page, and git gittuf, are not"
        " proved. Times are what who signed said. A name stands beside an entry where a signature of it, or of an approval of its change, is good"
        " by that person's key, and says not that it sufficed; the verdict does. docs/CONCEPTS.md says what is trusted.</p>",
    ]
    sealed = f'<meta http-equiv="Content-Security-Policy" content="{SEALED}">'
    width = '<meta name="viewport" content="width=device-width,initial-scale=1">'
    head = f'<meta charset="utf-8">{sealed}{width}<title>{named}: gittuf</title><style>{STYLE}</style>'
    return f'<!doctype html><html lang="en"><head>{head}</head><body>{"".join(parts)}</body></html>\n', worst


def report(work, words):
    work.bring()
    if LOG not in work.repository.references():
        raise Stopped(sentences.NO_LOG, 3)
    trust.expect_entry(work, words)
    withheld.expect_none(work)
    made, worst = page(work, words, *trust.anchor(work, words))
    if words.output is None:
        print(made, end="", flush=True)
    else:
        with open(words.output, "w", encoding="utf-8") as file:
            file.write(made)
    return max(worst, 3) if any(name == LOG for _, name, _ in work.unfit) else worst
