#!/usr/bin/env python3
"""Brings the names of the repository's own definitions and lemmas to snake case, as the library spells its own.

usage: python3 tools/respell_names.py [FOLDER]     once, in a checkout of the older spelling, after the kit's own script

It goes by whole words through the clauses, specs, proofs and must-fail edits below FOLDER/crates (FOLDER is here where none is given).
The crate hex is called hexadecimal, since the library has a crate of the older name: its folder, its line of crates.txt, uses and paths.
Functions, exported names, strings, inputs and outputs hold none of these words, so they stay.
A second run changes nothing.
"""

import os
import re
import sys

# A name, and what it is called now. A name of several parts, as length-xorEach, follows from its parts.
WORDS = {
    'absorbedAll': 'absorbed_all',
    'allDigits': 'all_digits',
    'answerNumber': 'answer_number',
    'blockAnswer': 'block_answer',
    'bodyFault': 'body_fault',
    'bodyIn': 'body_in',
    'bodySize': 'body_size',
    'byTests': 'by_tests',
    'cbcBack': 'cbc_back',
    'cbcDecrypt': 'cbc_decrypt',
    'cbcEncrypt': 'cbc_encrypt',
    'cbcForth': 'cbc_forth',
    'cellTimes': 'cell_times',
    'cfbBack': 'cfb_back',
    'cfbDecrypt': 'cfb_decrypt',
    'cfbEncrypt': 'cfb_encrypt',
    'cfbForth': 'cfb_forth',
    'checkpointFits': 'checkpoint_fits',
    'checksumAnswer': 'checksum_answer',
    'countAt': 'count_at',
    'ctrRow': 'ctr_row',
    'decodeAnswer': 'decode_answer',
    'decodeBy': 'decode_by',
    'digestAnswer': 'digest_answer',
    'digitValue': 'digit_value',
    'ecbRow': 'ecb_row',
    'emptyReport': 'empty_report',
    'exampleBlock': 'example_block',
    'exampleImage': 'example_image',
    'exampleKey': 'example_key',
    'expandAnswer': 'expand_answer',
    'faultFrom': 'fault_from',
    'freeCells': 'free_cells',
    'freeIn': 'free_cells_in',
    'frontOf': 'front_part',
    'hashAnswer': 'hash_answer',
    'hashOf': 'hash_of',
    'headFault': 'head_fault',
    'headOk': 'head_ok',
    'headSize': 'head_size',
    'heldAfter': 'held_after',
    'inBook': 'in_book',
    'inText': 'in_text',
    'isDigit': 'is_digit',
    'issueAnswer': 'issue_answer',
    'keyLength': 'key_length',
    'keyOnly': 'key_only',
    'keyTextLength': 'key_text_length',
    'keyWords': 'key_words',
    'kitAnswer': 'kit_answer',
    'kitHeader': 'kit_header',
    'kitKey': 'kit_key',
    'kitKeys': 'kit_keys',
    'kitRoom': 'kit_room',
    'kitSize': 'kit_size',
    'lastOf': 'last_of',
    'layerNumber': 'layer_number',
    'mixedAll': 'mixed_all',
    'modeAnswer': 'mode_answer',
    'mostCells': 'most_cells',
    'mostNumber': 'most_number',
    'mostVisits': 'most_visits',
    'noneFree': 'none_free',
    'numberWithin': 'number_within',
    'octetAt': 'octet_at',
    'openAnswer': 'open_answer',
    'openBy': 'open_by',
    'parseAnswer': 'parse_answer',
    'partsAnswer': 'parts_answer',
    'refusalNumber': 'refusal_number',
    'reportAt': 'report_at',
    'reportOf': 'report_of',
    'roundBackward': 'round_backward',
    'roundForward': 'round_forward',
    'roundsDown': 'rounds_down',
    'roundsUp': 'rounds_up',
    'sealSame': 'seal_same',
    'checkSame': 'check_same',
    'sealAnswer': 'seal_answer',
    'seedOf': 'seed_of',
    'serialFits': 'serial_fits',
    'shortMark': 'short_mark',
    'siteAt': 'site_at',
    'siteFits': 'site_fits',
    'siteNamed': 'site_named',
    'sixteenAt': 'sixteen_at',
    'startFault': 'start_fault',
    'startSize': 'start_size',
    'stepNumber': 'step_number',
    'sumFault': 'sum_fault',
    'sumSize': 'sum_size',
    'swapsBackward': 'swaps_backward',
    'swapsForward': 'swaps_forward',
    'tagAnswer': 'tag_answer',
    'tagHead': 'tag_head',
    'tagLetters': 'tag_letters',
    'tagParts': 'tag_parts',
    'tagSize': 'tag_size',
    'textSize': 'text_size',
    'timeFits': 'time_fits',
    'transformAnswer': 'transform_answer',
    'underWord': 'under_word',
    'unwrapAnswer': 'unwrap_answer',
    'unwrapStep': 'unwrap_step',
    'unwrapSteps': 'unwrap_steps',
    'usedCells': 'used_cells',
    'valueOf': 'value_of',
    'visitOf': 'visit_of',
    'visitOk': 'visit_ok',
    'visitSize': 'visit_size',
    'visitsAt': 'visits_at',
    'visitsFault': 'visits_fault',
    'visitsFrom': 'visits_from',
    'visitsOk': 'visits_ok',
    'wandAt': 'wand_at',
    'wandFits': 'wand_fits',
    'wandNamed': 'wand_named',
    'wholeMark': 'whole_mark',
    'wrapAnswer': 'wrap_answer',
    'wrapStep': 'wrap_step',
    'wrapSteps': 'wrap_steps',
    'xorEach': 'xor_each',
}

# Names of lemmas that cite a word of the library by its older name, which the library calls get_or now.
WHOLE = {
    'getD-each': 'get_or-each',
    'getD-xorEach-front': 'get_or-xor_each-front',
    'getD-xorEach': 'get_or-xor_each',
    'times-getD': 'times-get_or',
}

# The round key of the block cipher, in the crate of the cipher alone.
ROUND_KEY = ("belt", "K", "round_key")

# The crate whose name the library has too, and what it is called now: in uses, paths and calls.
CRATE = ("hex", "hexadecimal")
CRATE_PLACES = [(r"\bRattle\.hex\.", "Rattle.hexadecimal."), (r"\buse hex::", "use hexadecimal::"), (r"\bhex::parse\b", "hexadecimal::parse")]


def respelled(text, crate):
    for old, new in CRATE_PLACES:
        text = re.sub(old, new, text)
    for old, new in WHOLE.items():
        text = re.sub(r"(?<![\w'-])" + re.escape(old) + r"(?![\w'-])", new, text)
    text = re.sub(r"\b[a-z]+(?:[A-Z][a-z0-9]*)+\b", lambda m: WORDS.get(m.group(0), m.group(0)), text)
    if crate == ROUND_KEY[0]:
        text = re.sub(r"(?<![\w'\"-])" + ROUND_KEY[1] + r"(?![\w'\"-])", ROUND_KEY[2], text)
    return text


def rename_crate(top):
    old, new = CRATE
    if os.path.isdir(os.path.join(top, "crates", old)):
        os.rename(os.path.join(top, "crates", old), os.path.join(top, "crates", new))
    path = os.path.join(top, "crates.txt")
    with open(path, encoding="utf-8") as f:
        text = f.read()
    with open(path, "w", encoding="utf-8") as f:
        f.write(re.sub(rf"\b{old}\b", new, text))


def main(top):
    changed = 0
    rename_crate(top)
    for crate in sorted(os.listdir(os.path.join(top, "crates"))):
        for folder, dirs, files in os.walk(os.path.join(top, "crates", crate)):
            dirs[:] = sorted(d for d in dirs if d != "out")
            for name in sorted(files):
                if not name.endswith((".rt", ".antt", ".edit")):
                    continue
                path = os.path.join(folder, name)
                with open(path, encoding="utf-8") as f:
                    before = f.read()
                after = respelled(before, crate)
                if after != before:
                    with open(path, "w", encoding="utf-8") as f:
                        f.write(after)
                    changed += 1
    print(f"{changed} files respelled")


if __name__ == "__main__":
    main(sys.argv[1] if len(sys.argv) > 1 else ".")
