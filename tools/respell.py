#!/usr/bin/env python3
"""Brings the definitions and lemmas of this repository to the spelling of today's Rattle: words joined by `_`.

usage: python3 tools/respell.py     at the top, once, after the kit's port.py

A dash stays only where a lemma's name joins the names of two functions, as in `sum-put`.
Goals, steps and what else Rattle names keep their names, and so do functions of src/, strings and comments.
"""

import glob
import re

# Names whose dashes become underscores.
PLAIN = """
accepted-by added-axioms added-regular added-rest all-counted all-covered all-e all-filler all-joined all-kept all-lost all-members all-single
and-absorbs and-power any-from any-to append-sound as-at-most-one as-exists as-nothing as-only as-role-under as-under at-10 at-11 at-2 at-3 at-4
at-axiom at-below at-change at-end at-lost at-most-all at-most-one-is at-most-one-true at-need at-owner at-past at-put axiom-at axiom-axiom
axiom-context axiom-is axiom-keeps axiom-kept axiom-more axiom-of axiom-places axiom-same axiom-sound axiom-used axiom-writes axioms-end axioms-in-use
axioms-next axioms-of back-same below-passed bit-half bit-low bit-mod bit-power bits-same bodies-append body-before body-front body-inside
body-outside body-rest body-split body-unread body-writes by-axiom by-edge by-need by-pair bytes-at came-back carried-within carries-at
catalogue-bytes catalogue-few catalogue-list catalogue-short catalogue-sound cause-number chain-end chain-step change-at change-past child-of
child-point child-to child-x child-y child-z closed-steps cond-used context-places context-size context-small contexts-same count-le count-listed
count-member counted-some counting-last counts-text covered-in-use covers-from covers-includes covers-is covers-refl covers-to covers-trans d-of
d-over d-to down-from drop-at-place due-1 due-10 due-11 due-2 due-3 due-4 due-5 due-6 due-7 due-8 due-9 due-found due-grounded due-in-use due-is
due-kept due-regular due-start due-true each-axiom each-cases each-finds each-here each-later each-need each-past edge-applies edge-axiom edge-context
edge-need else-last else-none else-some else-try empty-regular end-text entries-are entries-refusal entry-bodies entry-bytes entry-longer
entry-refusal entry-right entry-stated entry-text exists-is exists-true f-of f-to fault-more faultless-end faultless-more faultless-stuck faults-in
faults-push few-bodies few-roles few-terms fields-sound fields-write filled-fills filled-front filled-g filled-step filler-byte filler-in-use
filler-of filler-reads filler-set filler-sound filler-text filler-used filler-writes fills-within finds-1 finds-10 finds-11 finds-2 finds-3 finds-4
finds-5 finds-6 finds-7 finds-8 finds-9 finds-at finds-like first-left first-missing first-missing-finds first-none first-same form-bytes form-is
found-due found-end found-is-any found-next found-row free-from free-parts fresh-regular from-read from-sound from-target full-places full-room g-over
gathered-in-use given-finds h-true half-below has-back has-covered has-joined has-mask has-not-none has-or has-role has-single has-turned held-closed
held-in-use here-is in-axioms in-need in-needs in-q in-run in-shelf is-1 is-10 is-11 is-2 is-3 is-4 is-5 is-6 is-7 is-8 is-9 is-back is-filler is-from
is-maximal is-readable is-role is-stored is-term is-to is-top joined-ends joined-has joined-here joined-in-use joined-least joined-left joined-not
joined-right joined-sound kept-none kept-passed kept-short kept-sound l-none laid-again lawful-words led-back led-back-role led-cases led-down led-out
led-turned led-up left-again left-bytes left-carried left-more left-read left-reads left-said left-set left-short left-stuck left-text left-writes
length-body length-end length-laid length-lines length-records line-byte line-front line-is line-part line-rest line-right line-split line-text
lines-append lines-push lines-text list-is listing-text live-step made-axioms made-grown made-rest map-left mask-digit max-test maximal-above
maximal-closed maximal-from maximal-role maximal-roles maximal-terms maximal-to min-test missing-finds mod-suc models-added more-role
more-roles-in-use need-context need-covers need-more need-need need-of need-places need-same need-size need-small need-step needs-same next-is
next-parts no-child no-form no-left no-set none-bytes none-closed none-some none-start nothing-true number-backward number-forward obeys-all
offset-end offset-next on-some-place on-target one-child one-if one-if-le one-if-small one-role one-role-in-use one-role-member one-thing only-is
only-true onward-back onward-unite opened-axioms opened-reached opened-rest or-both or-false or-none or-other over-d over-g packet-in-use packet-short
pair-axiom pair-context pair-need pair-opens pair-other pair-result passing-decides placed-ok possible-parts pow-suc pushed-once put-at put-end
put-from put-none reached-regular read-both read-fields read-form read-record read-sound readable-whole reads-back reads-from record-at records-from
records-list records-short records-sound refusal-due refusal-end refusal-here refusal-next refusal-number refused-faulty rest-after rest-search
rested-regular right-added right-fresh right-held right-needed right-parts right-sound right-void role-byte role-count role-covered role-covers
role-has role-in-use role-joined role-laws role-means role-none role-number role-numbered role-of role-reads role-single role-size role-size-le
role-size-lt role-size-same role-size-some role-sound role-text role-under-is role-under-true role-used role-word role-writes roles-in-use
roles-joined-in-use roles-limit roles-sound room-kept root-point rule-1 rule-10 rule-11 rule-2 rule-3 rule-4 rule-5 rule-5-turned rule-6 rule-7 rule-8
rule-9 run-axioms run-rest same-list same-members same-terms search-1 search-10 search-11 search-2 search-3 search-4 search-5 search-6 search-7
search-8 search-9 search-finds second-field second-mark set-in-use set-of set-turned single-above single-has single-in-use single-is single-member
single-none single-small single-zero so-far-none some-lowest some-thing sound-at sound-axiom sound-due sound-entry sound-read spaced-more state-of
state-same stated-part step-bound steps-axioms steps-bounded steps-grown steps-rest stop-number stored-decides stored-in-use stored-or-missing sum-end
tail-same take-answer take-made take-reached take-set-in take-state taken-axioms taken-faultless taken-potential taken-reached taken-regular
taken-rest taken-state target-carried target-closed target-live term-count term-covers term-has term-joined term-laws term-none term-number term-reads
term-single term-size term-size-le term-size-lt term-sound term-word term-writes terms-in-use terms-text terms-to terms-to-small to-axiom to-g
to-target top-covers top-highest turn-in-use turn-means turned-back turned-covers turned-has turned-in-use turned-member turned-members turned-number
turned-of turned-roles-in-use turned-small turned-twice two-again two-drop under-is under-true unite-same used-in-use void-closed walk-live
walk-nothing want-answer want-axioms want-grown want-made want-place want-rest want-set-answer want-set-state want-state want-stored when-failed
when-finds when-passed when-same whole-text with-axioms with-contexts with-entry with-left with-needs with-others with-roles with-terms word-behind
word-covers word-has word-single word-turned work-axioms work-grown work-made work-rest write-answer write-buffer writes-from written-again
zero-writes
""".split()

# Names that get another spelling than that.
OTHER = {
    "Found-1": "Found1",
    "Found-10": "Found10",
    "Found-11": "Found11",
    "Found-2": "Found2",
    "Found-3": "Found3",
    "Found-4": "Found4",
    "Found-5": "Found5",
    "Found-6": "Found6",
    "Found-7": "Found7",
    "Found-8": "Found8",
    "Found-9": "Found9",
    "bit-and": "bit-bit_and",
    "bit-or": "bit-bit_or",
    "drop-at-suc": "drop_at-suc",
    "has-one-role": "has-one_role",
    "same-list-refl": "same_list-refl",
}

NAMES = {n: n.replace("-", "_") for n in PLAIN} | OTHER
# What Rattle makes: the known facts of an answer, the variables of an invariant, the goals.
MADE = {"c", "w", "l", "goal"}
PATH = re.compile(r"[^\s(){}\[\];,\"@λ]+")
# In a source file: strings and comments first, so that nothing in them is taken for a name.
SOURCE = re.compile(r'"(?:[^"\\]|\\.)*"|//[^\n]*|' + PATH.pattern)
PROOF = re.compile(r'"(?:[^"\\]|\\.)*"|(?<!\S)--(?!\S)[^\n]*|' + PATH.pattern)


def respelled(found):
    text = found.group(0)
    if text[0] == '"' or text.startswith("//") or text.startswith("--"):
        return text
    parts = text.split(".")
    if parts[0] in MADE:
        return text
    return ".".join(NAMES.get(p, p) for p in parts)


def main():
    for pattern, form in (("crates/*/src/**/*.rt", SOURCE), ("crates/*/specs/**/*.antt", PROOF), ("crates/*/proofs/**/*.antt", PROOF)):
        for path in sorted(glob.glob(pattern, recursive=True)):
            with open(path, encoding="utf-8") as f:
                old = f.read()
            new = form.sub(respelled, old)
            if new != old:
                with open(path, "w", encoding="utf-8") as f:
                    f.write(new)


main()
