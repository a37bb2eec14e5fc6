#!/usr/bin/env python3
"""Brings the names that the repository defines in specs/ and proofs/ to the spelling of today's Rattle: words in snake case.

Run once, at the top, after the toolchain's own script (port.py) and before any edit by hand. It turns
  - a name in lower camel case, also as a part of a lemma's name, into snake case (arcAt -> arc_at, firstPlace-low -> first_place-low);
  - a record's field whose words a dash joined (few-modes -> few_modes); a dash goes on joining two names in a lemma's name;
  - names that fall together by that, or by port.py, into others (FALL and FIELDS below, with what each became).
Functions of src/, exported names, strings, inputs and outputs have no such names and stay as they are.
It goes over the .antt and .rt files of crates/ and the must-fail edits; other files are given as arguments.
"""
import glob
import re
import sys

# Lemmas that would have the name that a definition gets: renamed first, in the files of these crates, or in these files.
FALL = {
    'reading': {'model_in': 'model_in_lem'},
    'reading/proofs/SaidAgree.antt': {'model_in': 'model_in_lem', 'all_same': 'all_same_lem'},
    'closing': {'only_at': 'only_at_lem'},
    'sets': {'only_at': 'only_at_lem'},
    'judge': {'ran_on': 'ran_on_lem'},
    'hoa': {'lines_left': 'lines_left_lem'},
    'passes': {'pass_of': 'pass_at'},
    'search': {'pass_of': 'pass_at'},
}

# Fields of records.
FIELDS = {name: name.replace('-', '_') for name in (
    'action-most all-on arcs-fit as-found at-goal attained-later best-size by-refusal charges-of cycle-on cycle-short draw-most '
    'entry-charge few-arcs few-colours few-duties few-modes from-most gain-most habit-accepted habit-below habit-leads habit-lists '
    'knee-accepted knee-below knee-leads knee-lists leads-cycle leads-in leads-on levels-on modes-too no-plan of-barred of-falling '
    'of-missing of-mode of-open of-step of-yes possible-on prefix-on prefix-short reaches-on reaches-top rise-later same-cycle '
    'same-prefix size-done size-later ten-alone to-most top-bound').split()}
# Definitions get the names some_arc, no_plan, draw_most, gain_most and action_most, so these fields get others.
FIELDS['some-arc'] = 'has_arc'
FIELDS['no-plan'] = 'no_plan_iff'
FIELDS['draw-most'] = 'draw_fits'
FIELDS['gain-most'] = 'gain_fits'
FIELDS['action-most'] = 'action_fits'

# The library's getD is get_or today; in the names of lemmas about it too.
PARTS = {'getD': 'get_or'}

# A name: letters, digits, _ and ', parts joined by dashes; not a word of a path.
NAME = re.compile(r"(?<![\w'./-])[a-z][\w']*(?:-[^\s(){}\[\];,.:`\"]+)?|(?<=\.)[a-z][\w']*(?:-[\w']+)*")
CAMEL = re.compile(r"[a-z][a-z0-9]*(?:[A-Z][A-Za-z0-9]*)+[₀-₉']*(?:'s)?")


def snake(word):
    return re.sub(r'(?<=[a-z0-9])([A-Z])', lambda m: '_' + m.group(1).lower(), word)


def respelled(name, fall):
    if name in fall:
        return fall[name]
    if name in FIELDS:
        return FIELDS[name]
    parts = [PARTS.get(p) or (snake(p) if CAMEL.fullmatch(p) else p) for p in name.split('-')]
    return '-'.join(parts)


def turn(text, fall):
    return NAME.sub(lambda m: respelled(m.group(0), fall), text)


def main():
    files = sys.argv[1:]
    if not files:
        for ending in ('specs/**/*.antt', 'proofs/**/*.antt', 'src/**/*.rt', 'must-fail/*.edit'):
            files += glob.glob('crates/*/' + ending, recursive=True)
    for file in sorted(files):
        crate = file.split('/')[1] if file.startswith('crates/') else ''
        fall = FALL.get(file[len('crates/'):], FALL.get(crate, {}))
        with open(file, encoding='utf-8') as f:
            old = f.read()
        new = turn(old, fall)
        if new != old:
            with open(file, 'w', encoding='utf-8') as f:
                f.write(new)
            print('turned:', file)


main()
