#!/usr/bin/env python3
"""The script files of examples/: document 01's scripts S1 to S12, and the clarity of a hall.

  example_scripts.py FOLDER      writes FOLDER/NAME.script for each

Their listings are made by the listing program: target/bin/listing < NAME.script > NAME.listing
"""
import os
import sys

from script_files import (BINARY, BLOCK, BREAK, CALL, FIELD, FOR_IN, GOTO_FRAME, SWITCH, TERNARY, UNARY, WHILE,
                          Node, a_equals_80, default, identifier, integer, lst, run, script)

ASSIGN, ADD_ASSIGN, DIVIDE, MULTIPLY, LESS_THAN = 1, 2, 5, 7, 27
NEGATE, INCREMENT = 0, 3


def assign(target, value):
    return run(Node(BINARY, target, value, a=ASSIGN))


def energy(total, response, index, first, end):
    """for (index = first; index < end; index++) total += response[index] * response[index];"""
    def sample():
        return Node(FIELD, identifier(response), identifier(index))

    return Node(
        FOR_IN,
        assign(identifier(index), first),
        lst(Node(BINARY, identifier(index), end, a=LESS_THAN)),
        lst(Node(UNARY, identifier(index), a=INCREMENT)),
        run(Node(BINARY, identifier(total), Node(BINARY, sample(), sample(), a=MULTIPLY), a=ADD_ASSIGN)),
        a=1)


def hall_clarity():
    """The energy of an impulse response h before sample n80, the one at 80 ms, by the energy from that sample on to the last of n:

    early = 0;
    for (i = 0; i < n80; i++) early += h[i] * h[i];
    late = 0;
    for (i = n80; i < n; i++) late += h[i] * h[i];
    clarity = early / late;
    """
    early, i, n80, h, late, n, clarity = range(7)
    return script(
        assign(identifier(early), integer(0)),
        energy(early, h, i, integer(0), identifier(n80)),
        assign(identifier(late), integer(0)),
        energy(late, h, i, identifier(n80), identifier(n)),
        assign(identifier(clarity), Node(BINARY, identifier(early), identifier(late), a=DIVIDE)),
        strings=[b'early', b'i', b'n80', b'h', b'late', b'n', b'clarity'])


def goto_frames():
    return script(*[run(Node(GOTO_FRAME, integer(frame))) for frame in (0, 1, 2, -1, -2147483648)], strings=[])


EXAMPLES = {
    's1_empty': script(strings=[]),
    's2_assign': a_equals_80(),
    's3_while': script(Node(WHILE, identifier(0), Node(BLOCK, lst())), strings=[b'b']),
    's4_goto_frames': goto_frames(),
    's5_lone_break': script(Node(BREAK), strings=[]),
    's6_switch_of_statements': script(Node(SWITCH, identifier(0), lst(Node(BREAK), run(integer(1)))), strings=[b'a']),
    's7_two_defaults': script(Node(SWITCH, identifier(0), lst(default(), default())), strings=[b'a']),
    's8_negated': script(run(Node(UNARY, integer(-2147483648), a=NEGATE)), strings=[]),
    's9_null_set': script(assign(identifier(0), integer(1)), strings=[b'null']),
    's10_call': script(run(Node(CALL, identifier(0), lst(integer(1), integer(2)))), strings=[b'f']),
    's11_ternary': script(run(Node(TERNARY, identifier(0), integer(1), integer(2))), strings=[b'c']),
    's12_property': script(run(identifier(0)), strings=[b'_X']),
    'hall_clarity': hall_clarity(),
}


def main():
    if len(sys.argv) != 2:
        sys.exit(__doc__)
    for name, file in EXAMPLES.items():
        with open(os.path.join(sys.argv[1], name + '.script'), 'wb') as out:
            out.write(file)


if __name__ == '__main__':
    main()
