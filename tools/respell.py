#!/usr/bin/env python3
"""Brings the repository's own definitions and lemmas to today's spelling: words in snake case, a dash only between two names.

usage: tools/respell.py [ROOT]    once, right after the kit's port.py; it rewrites crates/**/*.antt and crates/*/src/*.rt in place

A name from the source keeps its spelling, and so do types, facts and the cases of a request. A lemma that would fall together
with a definition gets `_lem`.
"""
import glob
import os
import re
import sys

# Lemmas and labels whose new names no rule gives: mostly a dash that joined plain words, and names that would fall together.
SPECIAL = {
    # with a definition of the same words
    "no-facts": "no_facts_lem",
    "no-counts": "no_counts_lem",
    "last-page": "last_page_lem",
    "distinct-fields": "distinct_fields_lem",
    "page-fits": "page_fits_lem",
    "zero-header": "zero_header_lem",
    "zero-slot": "zero_slot_lem",
    "in-pages": "in_pages_lem",
    "page-at": "page_at_lem",
    "is-page": "is_page_lem",
    "header-parts": "header_parts_lem",
    "header-at": "header_at_lem",
    "with-page": "with_page_lem",
    "in-headers": "in_headers_lem",
    "on-headers": "on_headers_lem",
    "on-pages": "on_pages_lem",
    "header-step": "header_step_lem",
    "page-shown": "page_shown_lem",
    "pages-in": "pages_in_lem",
    # of a list's element with a default, which is now get_or
    "getD-fields": "get_or-fields",
    "getD-be": "get_or-be",
    # rules of soundness: functions, so in small letters
    "S1": "s1",
    "S2": "s2",
    "S3": "s3",
    "S4": "s4",
    "S5": "s5",
    # as the library spells it
    "and-false": "and-false",
    # a definition before and after a list's function
    "bytes_take": "bytes-take",
    "bytes_drop": "bytes-drop",
    "bytes-append": "bytes-append",
}

# Names that a dash joins on both sides: definitions, and the lists' functions.
JOINED = """append-join value-append field-take field-drop front-shr field-join total-eights join-shr cut-join join-cut join-append
total-append splice-splice pack-append pack-be in-side at-replicate numbered-map""".split()

# Fields of the repository's own records, which stand behind a dot.
FIELDS = {
    "header-bytes": "header_table_bytes",
    "header-length": "header_table_len",
    "page-bytes": "page_table_bytes",
    "page-length": "page_table_len",
    "id-low": "id_low",
    "id-high": "id_high",
    "next-high": "next_high",
}
FIELD_FILES = ("history", "plain")

# Labels that the kit's script took from a definition.
LABELS = {"ensures seen_after {": "ensures marks {", "ensures lent_after {": "ensures lent {"}

TOKEN = re.compile(r"[A-Za-z0-9_'₀-₉-]+")
TOP = re.compile(r"^(?: {2})*(?:(?:abbrev|unfoldable) )?(?:pub )?([^\s:(){}.]+) :(?: |$)")


def snake(word):
    """A word in snake case; a type or a fact keeps its capital."""
    if not word or not word[0].islower():
        return word
    return re.sub(r"(?<=[a-z0-9])([A-Z])", lambda m: "_" + m.group(1).lower(), word)


def texts(root):
    for pattern in ("crates/*/specs/**/*.antt", "crates/*/proofs/**/*.antt", "crates/*/src/**/*.rt"):
        yield from sorted(glob.glob(os.path.join(root, pattern), recursive=True))


def lemmas(root):
    """The dashed names that the files of specs/ and of proofs/ itself define, but those in a function's own folder."""
    names = set()
    for pattern in ("crates/*/specs/*.antt", "crates/*/proofs/*.antt"):
        for path in glob.glob(os.path.join(root, pattern)):
            with open(path, encoding="utf-8") as f:
                for line in f:
                    m = TOP.match(line)
                    if m and "-" in m.group(1) and not m.group(1).startswith("◌"):
                        names.add(m.group(1))
    return names


def main():
    root = sys.argv[1] if len(sys.argv) > 1 else "."
    dashed = lemmas(root)
    table = {}
    for name in dashed:
        joint = "-" if name in JOINED else "_"
        table[name] = joint.join(snake(part) for part in name.split("-"))
    table.update(SPECIAL)
    for path in texts(root):
        fields = FIELDS if path.split("crates/")[1].split("/")[0] in FIELD_FILES else {}
        with open(path, encoding="utf-8") as f:
            old = f.read()

        def turned(m):
            word, before = m.group(0), old[: m.start()]
            if word in fields:
                return fields[word]
            if word in table:
                # a field of a generated record is no lemma
                if before.endswith(".") and not re.search(r"\.[A-Z]\w*\.$", before):
                    return word
                return table[word]
            if word[0].islower() and "-" not in word:
                return snake(word)
            return word

        new = TOKEN.sub(turned, old)
        for label, other in LABELS.items():
            new = new.replace(label, other)
        if new != old:
            with open(path, "w", encoding="utf-8") as f:
                f.write(new)


if __name__ == "__main__":
    main()
