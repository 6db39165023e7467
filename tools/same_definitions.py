#!/usr/bin/env python3
"""Compares the definitions of specs/ with those of the commit that docs/DESIGN-PASS.md begins with.

The type `Contents` was the records of a book as lists, and `contents_of` the function from the tables to them. Both went:
clauses see the tables as those lists. So the old text is read with `Records` for `Contents` and without `contents_of`,
and what then differs is printed. Lines of imports are left out.
"""
import difflib
import os
import re
import subprocess

TOP = os.path.join(os.path.dirname(os.path.abspath(__file__)), "..")


def git(*words):
    return subprocess.run(["git", *words], cwd=TOP, capture_output=True, text=True, check=True).stdout


def renamed(text):
    text = re.sub(r"\(contents_of ([A-Za-z_][\w.\-]*)\)", r"\1", text)
    text = re.sub(r"(?<!\{)\bcontents_of ([A-Za-z_][\w.\-]*)", r"\1", text)
    text = re.sub(r"\bcontents_of, |, contents_of\b", "", text)
    return re.sub(r"(?<!specs\.)\bContents\b(?!\.)", "Records", text)


def definitions(text):
    return [line for line in text.splitlines() if not line.startswith(("use ", "pub use ", "pub mod "))]


def main():
    with open(os.path.join(TOP, "docs", "DESIGN-PASS.md")) as page:
        start = page.readline().strip()
    for path in git("ls-tree", "-r", "--name-only", start).split():
        if "/specs/" not in path or not path.endswith(".antt"):
            continue
        new = os.path.join(TOP, path)
        if not os.path.exists(new):
            print(f"{path}: gone")
            continue
        with open(new) as file:
            after = definitions(file.read())
        before = definitions(renamed(git("show", f"{start}:{path}")))
        lines = difflib.unified_diff(before, after, lineterm="", n=0)
        changed = [line for line in lines if not line.startswith(("---", "+++", "@@"))]
        if changed:
            print(f"{path}:")
            print("\n".join(f"    {line}" for line in changed))


main()
