"""Follows the links of the README and of the pages of docs to files of the repository, and to headings of pages. It also looks
whether the index of the decisions has each entry, once.

python3 tests/links.py [PAGE..]: the pages, or README.md and all below docs. A link to elsewhere is not followed. The last line
tells how many links were followed.
"""

import os
import re
import sys

from pages import GIVEN, anchors, links, text_of

INDEX = "docs/DECISIONS.md"
ENTRIES = "docs/decisions"


def all_pages():
    pages = ["README.md"]
    for folder, _, files in os.walk("docs"):
        pages += [os.path.join(folder, name) for name in files if name.endswith(".md")]
    return sorted(pages)


def is_elsewhere(target):
    return re.match(r"[a-z]+:", target) is not None


def fault_of(page, target):
    """What is wrong with a link of this page, if anything is."""
    named, _, heading = target.partition("#")
    place = os.path.normpath(os.path.join(os.path.dirname(page), named)) if named else page
    if place.startswith(".."):
        return f"{target} leads out of the repository"
    if not os.path.exists(place):
        return f"there is no {place}"
    if heading and heading not in anchors(text_of(place)):
        return f"{place} has no heading {heading}"
    return None


def unlisted():
    """The entries of the decisions that the index doesn't have just once."""
    listed = [target for _, target in links(text_of(INDEX))]
    for name in sorted(os.listdir(ENTRIES)):
        for given in GIVEN.findall(text_of(os.path.join(ENTRIES, name))):
            if listed.count(f"{os.path.basename(ENTRIES)}/{name}#{given}") != 1:
                yield f"{name}#{given}"


def tried():
    """The check is tried: links that lead nowhere, and what has to be told of each."""
    trials = (("docs/no_page.md", "there is no"), ("docs/cell.md#no-heading", "has no heading"), ("../outside.md", "leads out"))
    return [target for target, wanted in trials if wanted not in (fault_of("README.md", target) or "")]


def main():
    followed = wrong = 0
    for target in tried():
        wrong += 1
        print(f"the check does not see that {target} leads nowhere")
    for page in sys.argv[1:] or all_pages():
        for number, target in links(text_of(page)):
            if is_elsewhere(target):
                continue
            followed += 1
            fault = fault_of(page, target)
            if fault:
                wrong += 1
                print(f"{page}:{number}: {fault}")
    for entry in unlisted():
        wrong += 1
        print(f"{INDEX} doesn't have {entry} once")
    print(f"{followed} links checked, {wrong} wrong")
    return 1 if wrong else 0


if __name__ == "__main__":
    sys.exit(main())
