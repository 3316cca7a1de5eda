#!/usr/bin/env python3
"""Looks through the pages of a checkout: README.md and those of docs/.

usage: pages.py [CHECKOUT]     without it: the checkout in which this script lies

Of each page: its prose has at most 100 columns, its links lead to a page and to a headline there, and each crate,
file and folder of a crate that it names is there. Of docs/MAP.md and README.md: each crate of crates.txt has a row of
the map, and is named by the README, and the map has a row of no other. Each of these is one case. The last line is
`N passed, M failed`.
"""
import os
import re
import sys

COLUMNS = 100

FENCE = re.compile(r"\s*(?:```|~~~)")
ITEM = re.compile(r"\s*(?:[-*+]|\d+\.)\s")
LINK = re.compile(r"(?<!!)\[[^\]]*\]\(([^)\s]+)\)", re.S)
# a crate, a function of that spelling, or a path below a crate's folder
NAMED = re.compile(r"(?<![\w/.-])(?:crates/)?(eris_\w+)((?:/[\w-]+)*(?:\.[a-z]+)?)")
# a crate in the first column of a row, which may have several
ROW = re.compile(r"^\| ((?:eris\w*)(?:, eris\w*)*) \|")


def read(path):
    with open(path, encoding="utf-8") as it:
        return it.read()


def prose_of(text):
    """The numbers and the lines that are neither a table nor code."""
    is_fenced = is_item = is_code = was_blank = False
    for number, line in enumerate(text.split("\n"), 1):
        if FENCE.match(line):
            is_fenced = not is_fenced
            continue
        if is_fenced:
            continue
        if not line.strip():
            was_blank = True
            continue
        is_indented = line.startswith("    ")
        # indented lines behind an empty one are code, unless an item of a list goes on there
        is_code = is_indented and (is_code or (was_blank and not is_item))
        if ITEM.match(line):
            is_item = True
        elif not line.startswith(" "):
            is_item = False
        was_blank = False
        if not is_code and not line.lstrip().startswith("|"):
            yield number, line


def anchors_of(text):
    """The names by which links lead to the headlines of a page."""
    heads = re.findall(r"^#+ (.*)$", text, re.M)
    return {re.sub(r"[^\w\- ]", "", head.lower()).replace(" ", "-") for head in heads}


class Checkout:
    """The pages and crates of a folder."""

    def __init__(self, root):
        self.root = root
        docs = sorted(it for it in os.listdir(os.path.join(root, "docs")) if it.endswith(".md"))
        self.pages = ["README.md"] + [f"docs/{it}" for it in docs]
        self.crates = self.listed("crates.txt")
        self.functions = self.public_functions()

    def listed(self, path):
        lines = [line.split("#")[0].strip() for line in read(os.path.join(self.root, path)).split("\n")]
        return [re.split(r"[ :]", line)[0] for line in lines if line]

    def public_functions(self):
        """The functions whose names begin as those of crates do."""
        found = set()
        for folder, _, files in os.walk(os.path.join(self.root, "crates")):
            if f"{os.sep}src" in folder:
                for name in files:
                    found |= set(re.findall(r"\bfn (eris_\w+)", read(os.path.join(folder, name))))
        return found

    def is_there(self, name, path):
        """Whether there is this crate, with this folder, file or module in it; or a function of that name."""
        if name not in self.crates:
            return not path and name in self.functions
        place = os.path.join(self.root, "crates", name + path)
        return os.path.exists(place) or os.path.exists(place + ".antt")

    def wide_lines(self, page):
        text = read(os.path.join(self.root, page))
        for number, line in prose_of(text):
            if len(line) > COLUMNS:
                yield f"line {number} has {len(line)} columns"

    def broken_links(self, page):
        text = read(os.path.join(self.root, page))
        for target in LINK.findall(text):
            if "://" in target:
                continue
            path, _, anchor = target.partition("#")
            other = os.path.join(self.root, os.path.dirname(page), path) if path else os.path.join(self.root, page)
            if not os.path.exists(other):
                yield f"a link leads to {target}, which isn't there"
            elif anchor and anchor not in anchors_of(read(other)):
                yield f"a link leads to {target}, and there is no such headline"

    def lost_names(self, page):
        text = read(os.path.join(self.root, page))
        for name, path in NAMED.findall(text):
            # `eris_law_` stands for all crates that begin so
            is_open = name.endswith("_") and any(it.startswith(name) for it in self.crates)
            if not is_open and not self.is_there(name, path):
                yield f"names {name}{path}, which isn't there"

    def rows(self, page):
        """The crates that stand in the first column of the page's rows."""
        text = read(os.path.join(self.root, page))
        found = (ROW.match(line) for line in text.split("\n"))
        return [name for it in found if it for name in it.group(1).split(", ")]

    def unlisted(self):
        """The crates that docs/MAP.md has no row of, or more than one, and its rows of no crate."""
        rows = self.rows("docs/MAP.md")
        for name in self.crates:
            if rows.count(name) != 1:
                yield f"has {rows.count(name)} rows of {name}"
        for name in rows:
            if name not in self.crates:
                yield f"has a row of {name}, which crates.txt doesn't have"

    def unnamed(self):
        """The crates that README.md doesn't name."""
        text = read(os.path.join(self.root, "README.md"))
        for name in self.crates:
            if not re.search(rf"\b{name}\b", text):
                yield f"doesn't name {name}"

    def without_lines(self):
        """The folders of crates/ that crates.txt has no line of, and its lines of no folder."""
        folders = sorted(os.listdir(os.path.join(self.root, "crates")))
        for name in folders:
            if os.path.exists(os.path.join(self.root, "crates", name, "src")) and name not in self.crates:
                yield f"has no line of {name}"
        for name in self.crates:
            if name not in folders:
                yield f"has a line of {name}, which has no folder"

    def cases(self):
        """Each case by its page and what is wrong there."""
        for page in self.pages:
            yield page, self.wide_lines(page)
            yield page, self.broken_links(page)
            yield page, self.lost_names(page)
        yield "docs/MAP.md", self.unlisted()
        yield "README.md", self.unnamed()
        yield "crates.txt", self.without_lines()


def main():
    if len(sys.argv) > 2:
        print(__doc__)
        return 2
    here = os.path.dirname(os.path.dirname(os.path.abspath(__file__)))
    passed = failed = 0
    for page, wrong in Checkout(sys.argv[1] if sys.argv[1:] else here).cases():
        found = list(wrong)
        for it in found:
            print(f"{page}: {it}")
        passed, failed = passed + (not found), failed + bool(found)
    print(f"{passed} passed, {failed} failed")
    return 1 if failed else 0


if __name__ == "__main__":
    sys.exit(main())
