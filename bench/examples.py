#!/usr/bin/env python3
"""Runs the examples of README and of docs/RECIPES.md, and compares what each prints with the page, byte for byte.

    bench/examples.py

An example is a line of an indented block that begins with `$ `, with those below that begin with `> `, and the lines
after these are what it prints. Those of a page are run in their order, in a folder of their own. The picture that README
makes is compared with docs/rack.svg. The first difference is printed, and ends with status 1.
"""
import os
import re
import subprocess
import sys
import tempfile

TOP = os.path.dirname(os.path.dirname(os.path.realpath(__file__)))
PROGRAM = os.environ.get("BTRPLAN", os.path.join(TOP, "crates", "btrplan", "out", "btrplan"))
PAGES = ("README.md", "docs/RECIPES.md")


def text_of(path):
    with open(path, encoding="utf-8") as file:
        return file.read()


def examples(page):
    """Each example of a page, with the text that it prints."""
    for block in re.findall(r"(?:^    .*\n)+", page, re.MULTILINE):
        for example in re.split(r"^    \$ ", block, flags=re.MULTILINE)[1:]:
            command, printed = re.fullmatch(r"(.*\n(?:    > .*\n)*)((?s:.*))", example).groups()
            yield command.replace("\n    > ", "\n"), re.sub(r"^    ", "", printed, flags=re.MULTILINE)


def run_page(page, folder):
    """Runs the examples of a page in the folder, and returns how many there are."""
    os.symlink(PROGRAM, os.path.join(folder, "btrplan"))
    for name in ("bench", "examples"):
        os.symlink(os.path.join(TOP, name), os.path.join(folder, name))
    count = 0
    for command, wanted in examples(text_of(os.path.join(TOP, page))):
        made = subprocess.run(["bash", "-c", command], cwd=folder, capture_output=True, text=True, check=False)
        if made.stdout != wanted:
            sys.exit(f"bench/examples.py: {page}: {command}\nprinted\n{made.stdout}{made.stderr}and the page has\n{wanted}")
        count += 1
    return count


def main():
    if not os.access(PROGRAM, os.X_OK):
        sys.exit("bench/examples.py: the program is not built")
    for page in PAGES:
        with tempfile.TemporaryDirectory() as folder:
            count = run_page(page, folder)
            if page == "README.md" and text_of(os.path.join(folder, "rack.svg")) != text_of(os.path.join(TOP, "docs", "rack.svg")):
                sys.exit("bench/examples.py: docs/rack.svg is another picture of the rack")
        print(f"{page}: {count} examples print what it says")


main()
