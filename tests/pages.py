"""What the tests of the documents know of a page of Markdown: its headings, its links and the rows of its tables."""

import re

HEADING = re.compile(r"(#+) (.*)")
LINK = re.compile(r"\[[^\]]*\]\(([^)\s]+)\)")
GIVEN = re.compile(r'<a id="([^"]+)"></a>')


def text_of(path):
    with open(path, encoding="utf-8") as page:
        return page.read()


def prose_lines(text):
    """The lines of a page, each with its number; those of a block of code are left out."""
    in_code = False
    for number, line in enumerate(text.splitlines(), 1):
        if line.lstrip().startswith("```"):
            in_code = not in_code
        elif not in_code:
            yield number, line


def anchor(heading):
    """The anchor that a heading gets where pages are shown: small letters, no other marks than '-' and '_'."""
    kept = "".join(mark for mark in heading.strip().lower() if mark.isalnum() or mark in " -_")
    return kept.replace(" ", "-")


def anchors(text):
    """The anchors of a page: those that it gives itself, and its headings. A second heading of the same words gets -1, a third -2."""
    found = []
    for _, line in prose_lines(text):
        found += GIVEN.findall(line)
        heading = HEADING.fullmatch(line)
        if heading:
            name = anchor(heading.group(2))
            again = sum(1 for other in found if re.fullmatch(re.escape(name) + r"(-\d+)?", other))
            found.append(f"{name}-{again}" if again else name)
    return found


def links(text):
    """The targets of a page's links, each with the number of its line. What stands between backquotes links to nothing."""
    for number, line in prose_lines(text):
        for target in LINK.findall(re.sub(r"`[^`]*`", "", line)):
            yield number, target


def table_rows(text):
    """The rows of a page's tables below their heads, each as the number of its line and its cells."""
    in_table = False
    for number, line in prose_lines(text):
        if not line.startswith("|"):
            in_table = False
        elif re.fullmatch(r"[|: -]+", line):
            in_table = True
        elif in_table:
            yield number, [cell.strip() for cell in line.strip().strip("|").split("|")]
