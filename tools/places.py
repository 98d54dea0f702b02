#!/usr/bin/env python3
"""places.py [ROOT]: counts, in the sources of every crate below ROOT, the places that docs/DESIGN-PASS.md lists, point by point.

Comments are not read. Each count is that of the lines that a pattern finds."""
import glob
import re
import sys

ROOT = sys.argv[1] if len(sys.argv) > 1 else '.'

# point, what is counted, pattern
PLACES = [
    (1, 'own enums that hold a value or none, or a value or a refusal', r'^pub enum (Answer|Outcome|Read|Form|Pass|Piece|Gathered|Measured|Step|Survey|Item|Went|Passed|Turn|Card|Figure|Effect) |^    (Unread|Cut|Missing|Broken|Bad|Halt|Stop|Fail|Other|No)\b.*[,{]$'),
    (1, 'flags with a value beside them', r'^\s+(pub )?(ok|there|failed): bool'),
    (1, 'a number that stands for no value', r'^const (UNTOLD|NO_OPERATOR|UNDONE|FAILED|WRONG)\b|fn (seen|find)\(.* -> usize'),
    (1, 'numbers for kinds: tests', r'\b(kind|class|k|outcome|call|origin|number|c1|x\.number) (==|!=|<|>=) [0-9]+'),
    (1, 'numbers for kinds: values given', r'\b(kind|origin): [0-9]+,|refusals::(number|refused)\(|\brefused\('),
    (2, 'functions that differ in a type, a size, a constant or a call', r'fn (on_vectors|on_tests|on_numbers|on_stack|holder|affect_vector|affect_number|affect_stack|affect_body|pace_do|pace_fault|pace_if|unmark|pace_noting|fget|fset|gt|ge|is_less|is_equal|string_read|identifier_read|judge_integer|integer_at|judge_rational|rational_at|form_at|form|place|place_bare|size_of|letter_of|bytes_of|due_of|span_end|copy|copy_long|keep_frame|take_frame|pass_of|next_of|room_to_run|room_to_reprint|push_slots|push_slot)\b'),
    (3, 'while and loop', r'^\s*(let \w+ = )?(while|loop)\b'),
    (4, 'conversions by functions: wide, word, size, to_word, of_word, natural, of_signed, number_slot', r'\b(wide|word|size|to_word|of_word|natural|of_signed|number_slot)\('),
    (4, 'text put by bytes', r'\bput_(byte|text|lower|count|word|named|spaced|three|fraction)\('),
    (5, 'the table and the registers side by side', r'\bw: &(mut )?\[u8\],( |$)'),
    (5, 'the two bodies side by side', r"\bpre: &('a )?\[u8\]"),
    (5, 'the two tables of notes side by side', r'\bearly: &mut'),
    (5, 'the bound on the length of the bytes, in a clause', r'16777215\)'),
    (6, 'a slice with a place and a length beside it', r'start: usize, len: usize|from: usize, len: usize'),
    (6, 'a buffer with the place reached beside it', r'out: &mut \[u8; BUFFER\]'),
    (7, 'a choice of a step by number or kind', r'^\s+match (number|n|o|x|e) \{'),
]


def lines():
    for path in sorted(glob.glob(ROOT + '/crates/*/src/**/*.rt', recursive=True)):
        for line in open(path, encoding='utf8'):
            yield path, re.sub(r'//.*', '', line.rstrip('\n'))


def main():
    text = list(lines())
    for point, what, pattern in PLACES:
        found = [path for path, line in text if re.search(pattern, line)]
        print('%d | %s | %d' % (point, what, len(found)))
    answers = glob.glob(ROOT + '/crates/*/proofs/**/*.antt', recursive=True)
    print('8 | lines of proofs | %d' % sum(len(open(p, encoding='utf8').readlines()) for p in answers))


main()
