#!/usr/bin/env python3
"""Gives the repository's own definitions and lemmas the spelling that the Rattle of today has for names.

usage: python3 tools/respell_names.py      at the top, once, right after /opt/rattle/port/port.py

Words are in snake case, types in camel case. A dash stays where it joins the names of two functions, as in numbered-map,
and a lemma that would get the name of the function that it is about ends in _lem. Names of src/, and the names that Rattle
makes for steps and goals, are not touched: only the names below change, outside comments, in the .antt, .rt and .edit files
of crates/. It has served, and where it finds the old names gone it changes nothing.
"""

import re
import sys
from pathlib import Path

# names that the rule for all others would turn wrongly
BY_HAND = {
    # a dash between two functions
    "length-fieldOf": "length-field_of",
    "length_front": "length-front",
    "fieldOf-same": "field_of_same",
    # types
    "Given-by": "GivenBy",
    "All-in": "AllIn",
    "Some-in": "SomeIn",
    # a function of src/ has the name that the rule would give
    "countsLine": "line_of_counts",
    # lemmas on a function of the same name
    "letter-by": "letter_by_lem",
    "plain_rows": "plain_rows_lem",
    "public-key-rows": "public_key_rows_lem",
    "reply-rows": "reply_rows_lem",
    "row-of": "row_of_lem",
    "by_rows": "by_its_rows",
    # the library's nth is slice_get now
    "nth-map": "slice_get-map",
    "nth-take": "slice_get-take",
    "nth_drop": "slice_get-drop",
    "nth_left": "slice_get_left",
    "nth-within": "slice_get_within",
    "nth-there": "slice_get_there",
    "nth_in": "slice_get_in",
    "in-nth": "in_slice_get",
    # it speaks of a test that is not true
    "not-T-true": "not_true_is_false",
}

# definitions, lemmas, fields, constructors and variables in camel case or with a dash between plain words
TURNED = """
buildsAt buildsIn byRows checkValue fieldsFrom fieldsIn inText isBlank letterBy letterIn letterOf openedBy ownsAt
ownsIn plainRows publicKey publicKeyRows publicKeys refusalLine replyRows reportOf saidBy sealedBody sideRow spacesFrom
standingAfter summaryLine takingRows takingsAt takingsIn termAmong termAt termsAfter termsOf wellFormed

alike-said all-counts all-idle all-kept all-premises among-more at-m atom-kind atom-line blank-front blank-is both-off
builds-owned built-again by-iff by-kinds by-letter by-main bytes-at case-sound cases-cover cases-keep check-value-line
checked-same cipher-alone cipher-and-hashed cipher-and-key cipher-line count-few count-push count-some cut-here cut-none
cut-one cut-same different-counts each-result each-side eight-columns empty-begins ended-line fails-same fault-same
few-lines few-within field-fails field-justified field-long field-same first-column first-in first-same first-unread fits-at
formed-line from-spaces front-is given-in-use given-rows given-too good-first good-rest good-text hash-line held-is
holds-push i-is idle-built idle-in idle-on idle-taken in-held? in-line-same in-the-left in-the-right inner-field
inner-front inner-line inner-mark inner-one inner-spaced is-alike is-kept is-line is-names keep-first keep-rest kept-into
kept-is key-says kind-known kind-r kind-s kind-said last-behind last-column later-too lawful-theories leads-more least-too
least-within left-before left-s letter-same line-column listed-iff main-of main-too mapped-back mark-same marked-into
more-digits names-is never-fails never-refused new-from no-alike no-builds no-check no-cipher no-pair no-records no-repeat
no-reply no-sealed no-side no-signature no-slots no-takings no-term none-bad none-listed not-in-use nothing-beyond
numbered-among numbered-in numbered-left numbered-there of-line of-main on-others on-owned once-few one-digit
one-letter one-row ones-owned opened-kept other-line₁ other-line₂ others-span others-wide owns-both part-behind parted-from
parts-fit parts-r parts-s parts-too pile-keeps pile-lawful pile-no-step place-has place-there plain-builds plain-keeps
plain-lawful plain-owns public-key-builds public-key-keeps public-key-lawful public-key-line public-keys-own reach-next
read-fails refusal-same refused-here refused-same replies-own reply-alone reply-keeps reply-lawful reply-line rest-says
result-held result-in right-absent right-before right-in right-line right-r right-s round-on round-reached rounds-are-few
rounds-more rounds-stop row-held row-says rows-say-terms run-append run-for-all run-last runs-are-rounds said-after
said-by-row same-builds same-label same-part same-rounds same-side same-takings says-s sealed-alone sealed-and-public-key
sealed-and-reply sealed-line sealed-shut-line sealed-under-atom side-held side-in side-inside side-row-is side-too
signature-alone signature-line slots-written some-above some-count some-given some-long some-rows some-there sound-rows
spaced-line standard-lawful stands-too stops-within summary-same taken-again takings-are takings-in-rows term-discrete
terms-differ terms-proper terms-said text-push three-off to-round two-at-most twos-owned unused-at used-is whole-self
wholes-parts wholes-self within-terms
""".split()


def snake(name):
    return re.sub(r"(?<=[a-z])([A-Z])", lambda m: "_" + m.group(1).lower(), name).replace("-", "_")


NAMES = {**{n: snake(n) for n in TURNED}, **BY_HAND}
WORD = r"[\w'?₁₂≢-]"
PATTERN = re.compile(
    rf"(?<!{WORD})(" + "|".join(re.escape(n) for n in sorted(NAMES, key=len, reverse=True)) + rf")(?!{WORD})"
)


def clashes():
    """Two old names with one new name."""
    seen = {}
    for old, new in NAMES.items():
        seen.setdefault(new, []).append(old)
    return [olds for olds in seen.values() if len(olds) > 1]


def code_only(line, comment):
    """The line before its comment, and the comment."""
    at = line.find(comment)
    return (line, "") if at < 0 else (line[:at], line[at:])


def main():
    crates = Path("crates")
    if not crates.is_dir():
        sys.exit("run it at the top of the repository")
    if clashes():
        sys.exit(f"names fall together: {clashes()}")
    texts = {
        p: p.read_text(encoding="utf-8")
        for p in sorted(crates.rglob("*"))
        if p.suffix in (".antt", ".rt", ".edit") and "out" not in p.parts
    }
    if not any("publicKeys" in text for text in texts.values()):
        sys.exit("the names are turned already")
    for path, old in texts.items():
        comment = {".antt": "--", ".rt": "//", ".edit": "\0"}[path.suffix]
        lines = []
        for line in old.split("\n"):
            code, rest = code_only(line, comment)
            lines.append(PATTERN.sub(lambda m: NAMES[m.group(1)], code) + rest)
        new = "\n".join(lines)
        if new != old:
            path.write_text(new, encoding="utf-8")


if __name__ == "__main__":
    main()
