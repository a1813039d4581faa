"""The checks of tools/test that documents name what exists: crates, links, definitions, laws, rows and edits."""

import functools
import os
import re

import twin_files
from checking import TOP, Failure, want

README_BYTES = 10_000
# Where crates stand whose sources have one more ending.
UNPROVED = "unproved"
# The program has its crate's name.
PROGRAM_NAME = "gittuf"
NAMED = ("docs/THE-VERDICT.md", "docs/RULES.md", "docs/FORMATS.md")
RULES = "docs/RULES.md"
ARCHITECTURE = "docs/ARCHITECTURE.md"

FENCE = re.compile(r"^```.*?^```$", re.DOTALL | re.MULTILINE)
QUOTED = re.compile(r"`([^`\n]+)`")
LINK = re.compile(r"\]\(([^)\s]+)\)")
HEADING = re.compile(r"^#+ (.*)$", re.MULTILINE)
PATH = re.compile(r"(?:crates|unproved)/[\w/.-]+")
# A file of definitions and the names that are said to stand in it.
DEFINITIONS = re.compile(r"`(crates/\w+/specs/[\w/]+\.antt)`(?:: ((?:`\w+`(?:, | and )?)+))?")
CALL = re.compile(r"(\w+)((?:::\w+)+)")
EDIT = re.compile(r"(?:crates/(\w+)/)?must-fail/(\w+)")
DRAWN = re.compile(r"drawn-log-\d+")
FIGURE_NAME = re.compile(r"(?<![\w:-])[a-z0-9]+(?:_[a-z0-9]+)+(?![\w:(])")


def text_of(path):
    with open(os.path.join(TOP, path), encoding="utf-8") as file:
        return file.read()


def files_below(folder, end):
    for where, folders, names in os.walk(os.path.join(TOP, folder)):
        folders[:] = sorted(it for it in folders if it != "out")
        for name in sorted(names):
            if name.endswith(end):
                yield os.path.relpath(os.path.join(where, name), TOP)


def crates_in(path):
    """The crates that a list of crates has."""
    lines = (it.partition("#")[0] for it in text_of(path).splitlines())
    return {it.partition(":")[0].split()[0] for it in lines if ":" in it}


@functools.cache
def crates():
    """The crates that are proved, and those that are run alone."""
    return crates_in("crates.txt") | crates_in(f"{UNPROVED}/listed.txt")


@functools.cache
def folder_of(crate):
    return f"{UNPROVED}/{crate}" if crate in crates_in(f"{UNPROVED}/listed.txt") else f"crates/{crate}"


def pages():
    """The documents: those at the top, those of docs/ and the pages of crates."""
    of_crates = (f"{folder_of(it)}/README.md" for it in sorted(crates()))
    return ["README.md", "CHANGELOG.md", f"{UNPROVED}/README.md", *files_below("docs", ".md"), *(it for it in of_crates if os.path.exists(os.path.join(TOP, it)))]


def refuse(found):
    if found:
        raise Failure("; ".join(found[:8]) + (f"; and {len(found) - 8} more" if len(found) > 8 else ""))


def readme_is_one_page(repositories):
    """README.md is a page of at most 10,000 bytes, and names no crate but the program's"""
    text = text_of("README.md")
    size = len(text.encode())
    if size > README_BYTES:
        raise Failure(f"README.md has {size} bytes")
    quoted = {it.strip() for it in QUOTED.findall(text)}
    names = crates() - {PROGRAM_NAME}
    refuse([f"README.md names the crate {it}" for it in sorted(names) if it in quoted or "_" in it and re.search(rf"\b{it}\b", text)])
    return f"{size} bytes"


def lists_each_crate(repositories):
    """docs/ARCHITECTURE.md has a line for each crate of crates.txt, and for no other, and its figures name no other"""
    text = text_of(ARCHITECTURE)
    names, listed, is_list = crates(), [], False
    for line in text.splitlines():
        cells = [it.strip() for it in line.strip("|").split("|")]
        is_list = line.startswith("|") and (is_list or cells[0] == "Crate")
        if is_list and QUOTED.fullmatch(cells[0]):
            listed.append(cells[0].strip("`"))
    found = [f"{it} has no line" for it in sorted(names - set(listed))]
    found += [f"{it} has a line, and is no crate" for it in sorted(set(listed) - names)]
    refuse(found + [f"{it} has several lines" for it in sorted(names) if listed.count(it) > 1])
    figures = " ".join(FENCE.findall(text))
    refuse([f"a figure names {it}, which is no crate" for it in sorted(set(FIGURE_NAME.findall(figures)) - names)])


def anchors_of(path):
    headings = (it.replace("`", "").lower() for it in HEADING.findall(FENCE.sub("", text_of(path))))
    return {re.sub(r"[^\w -]", "", it).replace(" ", "-") for it in headings}


def leads_somewhere(page, link):
    path, _, anchor = link.partition("#")
    place = os.path.normpath(os.path.join(os.path.dirname(page), path)) if path else page
    if place.startswith("..") or not os.path.exists(os.path.join(TOP, place)):
        return False
    return not anchor or anchor in anchors_of(place)


def links_lead_somewhere(repositories):
    """each link of a document leads to a file that is there, and to a heading where it names one; so do paths below crates/"""
    found = []
    for page in pages():
        text = FENCE.sub("", text_of(page))
        links = (it for it in LINK.findall(text) if not re.match(r"\w+:", it))
        found += [f"{page}: {it}" for it in links if not leads_somewhere(page, it)]
        for it in (it.rstrip(".") for quoted in QUOTED.findall(text) for it in PATH.findall(quoted)):
            if not EDIT.search(it) and not it.split("/")[1].isupper() and not os.path.exists(os.path.join(TOP, it)):
                found.append(f"{page}: {it}")
    refuse(found)


@functools.cache
def sources_of(crate):
    return "\n".join(text_of(it) for end in (".rt", ".rt.txt") for it in files_below(f"{folder_of(crate)}/src", end))


def is_call(name):
    """Whether a crate has a call, a type or a module that is named with the crate in front."""
    parts = name.split("::")
    kinds = "fn|struct|enum|trait|mod|type|const"
    return parts[0] in crates() and all(re.search(rf"\b(?:{kinds}) {it}\b", sources_of(parts[0])) for it in parts[1:])


def is_edit(crate, name):
    place = os.path.join(TOP, "crates", crate, "must-fail", name)
    return any(os.path.exists(place + it) for it in (".edit", ".edit.md"))


def missing_on(crate):
    """What a crate's page names and the crate lacks, and the edits of the crate that its page lacks."""
    page = f"{folder_of(crate)}/README.md"
    if not os.path.exists(os.path.join(TOP, page)):
        return [f"{crate} has no page"]
    quoted = QUOTED.findall(text_of(page))
    edits = {it.removeprefix("must-fail/") for it in quoted if it.startswith("must-fail/")}
    folder = os.path.join(TOP, folder_of(crate), "must-fail")
    kept = {it.partition(".")[0] for it in os.listdir(folder)} if os.path.isdir(folder) else set()
    found = [f"{page}: must-fail/{it}" for it in sorted(edits ^ kept)]
    paths = (it for it in quoted if re.match(r"(?:src|specs|proofs)/", it))
    ends = ("", ".txt") if folder_of(crate).startswith(UNPROVED) else ("",)
    found += [f"{page}: {it}" for it in paths if not any(os.path.exists(os.path.join(TOP, folder_of(crate), it + end)) for end in ends)]
    laws = {it for it in quoted if re.fullmatch(r"\w*laws(?:::\w+)*", it)} - {crate}
    return found + [f"{page}: {it}" for it in sorted(laws) if not is_call(f"{crate}::{it}")]


def crates_have_pages(repositories):
    """each crate has a page, which names its edits, and files and laws that are there"""
    refuse([it for crate in sorted(crates()) for it in missing_on(crate)])


def rows():
    """The names of the functions that make rows, as rows are named."""
    made = (it for it in files_below("tools", ".py") if os.path.basename(it).startswith("rows_"))
    return {it.replace("_", "-") for path in made for it in re.findall(r"^def (\w+)\(", text_of(path), re.MULTILINE)}


def undefined_in(page, text):
    """The definitions that a page says stand in a file, and do not."""
    for path, names in DEFINITIONS.findall(" ".join(text.split())):
        if not os.path.exists(os.path.join(TOP, path)):
            yield f"{page}: {path}"
            continue
        defined = text_of(path)
        for it in QUOTED.findall(names):
            if not re.search(rf"^\s*(?:\w+ )*pub (?:\w+ )?{it}\b", defined, re.MULTILINE):
                yield f"{page}: {it} of {path}"


def formats_lists_its_headings(repositories):
    """the line of links in front of docs/FORMATS.md leads to each part of it, in their order"""
    text = text_of("docs/FORMATS.md")
    listed = re.findall(r"\[([^\]]+)\]\(#", text.partition("\n## ")[0])
    want(listed, re.findall(r"^## (.*)$", text, re.MULTILINE), "the parts that are listed")


def definitions_exist(repositories):
    """each definition, law, call, test and edit that THE-VERDICT, RULES and FORMATS name is there"""
    found = []
    for page in NAMED:
        text = text_of(page)
        found += undefined_in(page, text)
        for it in QUOTED.findall(text):
            if CALL.fullmatch(it) and not is_call(it):
                found.append(f"{page}: {it}")
        found += [f"{page}: {crate}/must-fail/{it}" for crate, it in EDIT.findall(text) if not is_edit(crate, it)]
    refuse(found)


def rows_exist(repositories):
    """what docs/RULES.md says tries a rule is a row of tools/tests/rows_*.py, a law, a test or an edit"""
    known, found, count = rows(), [], 0
    for line in text_of(RULES).splitlines():
        if line.startswith("| ") and not line.startswith(("| The rule", "| Number")):
            for it in QUOTED.findall(line.rstrip("| ").split(" | ")[-1]):
                count += it in known
                is_tool = it.startswith("tools/") and os.path.exists(os.path.join(TOP, it.split()[0]))
                if not (it in known or DRAWN.fullmatch(it) or CALL.fullmatch(it) or EDIT.fullmatch(it) or is_tool):
                    found.append(f"{it} is no row")
    refuse(found)
    return f"{count} rows are named"


def wrong_with(name):
    """What keeps a twin from being tried."""
    try:
        twin = twin_files.Twin(name)
        twin_files.texts_of([twin])
    except twin_files.BadTwin as why:
        return f"{name}: {why}"
    if twin.is_for_a_check():
        found = is_check(*twin.by.split("::"))
    elif twin.by in twin_files.PRINTING:
        found = True
    else:
        found = is_call(twin.by) if twin.crate() else twin.by in rows()
    return None if found else f"{name}: {twin.by} is no row, no test and no check"


def is_check(module, name):
    """Whether a module of tools/tests has a check of this name among those that tools/test makes."""
    place = f"tools/tests/{module}.py"
    if not os.path.exists(os.path.join(TOP, place)):
        return False
    _, listed, checks = text_of(place).partition("\nCHECKS = (")
    return bool(listed) and name in re.findall(r"\w+", checks.partition(")")[0])


def twins_can_be_tried(repositories):
    """each twin changes texts that stand once in their files, and names a row, a test or a check"""
    names = twin_files.names()
    refuse([it for it in map(wrong_with, names) if it])
    return f"{len(names)} twins"


CHECKS = (
    readme_is_one_page,
    lists_each_crate,
    crates_have_pages,
    links_lead_somewhere,
    formats_lists_its_headings,
    definitions_exist,
    rows_exist,
    twins_can_be_tried,
)
