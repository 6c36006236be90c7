#!/usr/bin/env python3
"""Script files with known answers (document 01, 'The script file').

  script_files.py corpus TEXT ANSWERS             the files listed here, with the answers written here
  script_files.py random SEED COUNT TEXT ANSWERS  random files, with the answers of the checker below
  script_files.py show                            the bytes of `a = 80;`

TEXT gets a line `NAME BYTES` for each file, ANSWERS a line `NAME ANSWER`: 0 accepted, or the refusal 4, 1, 2, 3.
BYTES are two hex digits a byte; `@PART*COUNT:` is PART and then COUNT more bytes of its repetition.
"""
import random
import re
import struct
import sys

MOST = 0xFFFFFFFF

# ---------------------------------------------------------------- kinds, by their places in hir.rs

DECLARE, RETURN, THROW, EXPR, BLOCK, FOR_IN, WHILE, IF, BREAK, CONTINUE = range(10)
TRY, WAIT_FOR_FRAME, TELL_TARGET, INLINE_PCODE, WITH, SWITCH = range(10, 16)

(CONSTANT, CALL, NEW, DUPLICATE, ASCII_TO_CHAR, MB_ASCII_TO_CHAR, CALL_FRAME, GET_TIME, BINARY, UNARY, TERNARY, INIT_OBJECT,
 INIT_ARRAY, FIELD, TYPE_OF, DELETE, VOID, FUNCTION, GET_VARIABLE, SET_VARIABLE, GOTO_FRAME, GET_URL, CAST_TO_INTEGER,
 CAST_TO_NUMBER, CAST_TO_STRING, CAST_TO_OBJECT, STRING_LENGTH, MB_STRING_LENGTH, CHAR_TO_ASCII, MB_CHAR_TO_ASCII, SUBSTRING,
 MB_SUBSTRING, NEXT_FRAME, PREVIOUS_FRAME, PLAY, STOP, STOP_SOUNDS, START_DRAG, END_DRAG, GET_TARGET_PATH, TRACE,
 REMOVE_SPRITE, GET_RANDOM_NUMBER, GET_PROPERTY, SET_PROPERTY, TOGGLE_QUALITY) = range(32, 78)

ABSENT, LIST, OBJECT_FIELD, PARAMETER, CASE, DEFAULT = range(96, 102)

# ---------------------------------------------------------------- the writer


class Node:
    """A record with its children. `size` stands in for the true size where it is given."""

    def __init__(self, kind, *children, a=0, b=0, c=0, size=None):
        self.kind, self.children, self.a, self.b, self.c, self.size = kind, list(children), a, b, c, size


def records_of(node):
    """The records of a tree: the children's in order, then its own."""
    out = []
    for child in node.children:
        out += records_of(child)
    size = len(out) + 1 if node.size is None else node.size
    return out + [(node.kind, node.a, node.b, node.c, size)]


def word(value):
    return struct.pack('<I', value & MOST)


def write(strings, records, ends=None, record_distance=None, end_distance=None, record_count=None, string_count=None, edition=1,
          before=b'', after_strings=b'', after_ends=b'', after_records=b'', after=b''):
    """The bytes of a file. Every part can be given instead of computed, and bytes can be put between the areas."""
    if ends is None:
        ends, total = [], 0
        for s in strings:
            total += len(s)
            ends.append(total)
    records_part = b''.join(word(w) for r in records for w in r) + after_records
    ends_part = b''.join(word(e) for e in ends) + after_ends
    trailer = [
        len(records_part) if record_distance is None else record_distance,
        len(records_part) + len(ends_part) if end_distance is None else end_distance,
        len(records) if record_count is None else record_count,
        len(ends) if string_count is None else string_count,
        edition]
    return before + b''.join(strings) + after_strings + ends_part + records_part + b''.join(word(w) for w in trailer) + after


def lst(*children, a=None, b=0, c=0, size=None):
    return Node(LIST, *children, a=len(children) if a is None else a, b=b, c=c, size=size)


def script(*statements, strings=(b'a', b'bc', b''), **damage):
    """A file whose root lists the statements; three strings unless others are given."""
    return write(list(strings), records_of(lst(*statements)), **damage)


def of_root(root, strings=(b'a', b'bc', b''), **damage):
    return write(list(strings), records_of(root), **damage)


def of_records(*records, strings=(), **damage):
    return write(list(strings), list(records), **damage)


# small trees: an expression, a statement, and what else can stand somewhere
def e():
    return Node(GET_TIME)


def s():
    return Node(BREAK)


def absent():
    return Node(ABSENT)


def case():
    return Node(CASE, e())


def default():
    return Node(DEFAULT)


def object_field():
    return Node(OBJECT_FIELD, e(), a=1)


def parameter():
    return Node(PARAMETER, a=1, b=0)


def run(expression):
    """A statement that is one expression."""
    return Node(EXPR, expression)


def string(index):
    return Node(CONSTANT, a=0, b=index)


def identifier(index):
    return Node(CONSTANT, a=1, b=index)


def integer(value):
    return Node(CONSTANT, a=3, b=value & MOST)


def function(*body, a=0, b=0, c=0, parameters=()):
    return Node(FUNCTION, lst(*parameters), lst(*body), a=a, b=b, c=c)


def enumerate_in(b=0, c=0, a=0):
    return Node(FOR_IN, e(), s(), a=a, b=b, c=c)


def classic(first=None, a=1, b=0, c=0):
    return Node(FOR_IN, absent() if first is None else first, lst(e()), lst(e()), s(), a=a, b=b, c=c)


def voids(count, leaf):
    for _ in range(count):
        leaf = Node(VOID, leaf)
    return leaf


def blocks(count, leaf):
    for _ in range(count):
        leaf = Node(BLOCK, lst(leaf))
    return leaf


def a_equals_80():
    """`a = 80;`"""
    return script(run(Node(BINARY, identifier(0), integer(80), a=1)), strings=[b'a'])


# ---------------------------------------------------------------- the files with known answers

FILES = []
NAMES = set()


def known(name, answer, file):
    """`file` is bytes, or parts (bytes, times) in a row."""
    assert name not in NAMES and ' ' not in name, name
    NAMES.add(name)
    FILES.append((name, answer, [(file, 1)] if isinstance(file, bytes) else file))


# expressions whose children are all expressions and whose words are not used: name, kind, number of children
PLAIN_EXPRESSIONS = [
    ('duplicate_movie_clip', DUPLICATE, 3), ('ascii_to_char', ASCII_TO_CHAR, 1), ('mb_ascii_to_char', MB_ASCII_TO_CHAR, 1),
    ('call_frame', CALL_FRAME, 1), ('get_time', GET_TIME, 0), ('ternary', TERNARY, 3), ('field', FIELD, 2), ('type_of', TYPE_OF, 1),
    ('delete', DELETE, 1), ('void', VOID, 1), ('get_variable', GET_VARIABLE, 1), ('set_variable', SET_VARIABLE, 2),
    ('cast_to_integer', CAST_TO_INTEGER, 1), ('cast_to_number', CAST_TO_NUMBER, 1), ('cast_to_string', CAST_TO_STRING, 1),
    ('cast_to_object', CAST_TO_OBJECT, 2), ('string_length', STRING_LENGTH, 1), ('mb_string_length', MB_STRING_LENGTH, 1),
    ('char_to_ascii', CHAR_TO_ASCII, 1), ('mb_char_to_ascii', MB_CHAR_TO_ASCII, 1), ('substring', SUBSTRING, 3),
    ('mb_substring', MB_SUBSTRING, 3), ('next_frame', NEXT_FRAME, 0), ('previous_frame', PREVIOUS_FRAME, 0), ('play', PLAY, 0),
    ('stop', STOP, 0), ('stop_sounds', STOP_SOUNDS, 0), ('end_drag', END_DRAG, 0), ('get_target_path', GET_TARGET_PATH, 1),
    ('trace', TRACE, 1), ('remove_sprite', REMOVE_SPRITE, 1), ('get_random_number', GET_RANDOM_NUMBER, 1),
    ('toggle_quality', TOGGLE_QUALITY, 0)]


def valid_files():
    known('empty_script', 0, script(strings=[]))
    known('empty_script_of_three_unused_strings', 0, script())
    known('one_string_that_is_empty', 0, script(strings=[b'']))
    known('only_empty_strings', 0, script(strings=[b'', b'', b'']))
    known('equal_strings', 0, script(run(string(0)), run(string(1)), strings=[b'same', b'same']))
    known('empty_string_between_two', 0, script(run(string(1)), strings=[b'a', b'', b'b']))
    known('string_of_zero_bytes', 0, script(run(string(0)), strings=[b'\0\0']))
    known('string_used_twice', 0, script(run(string(0)), run(identifier(0)), strings=[b'a']))
    known('a_equals_80', 0, a_equals_80())
    known('two_statements', 0, script(s(), Node(CONTINUE)))

    known('declare_without_value', 0, script(Node(DECLARE, absent(), a=0)))
    known('declare_with_value', 0, script(Node(DECLARE, e(), a=2)))
    known('return_of_none', 0, script(Node(RETURN, lst())))
    known('return_of_one', 0, script(Node(RETURN, lst(e()))))
    known('return_of_two', 0, script(Node(RETURN, lst(e(), string(0)))))
    known('throw_of_none', 0, script(Node(THROW, lst())))
    known('throw_of_one', 0, script(Node(THROW, lst(e()))))
    known('throw_of_two', 0, script(Node(THROW, lst(e(), e()))))
    known('expression_statement', 0, script(run(e())))
    known('block_empty', 0, script(Node(BLOCK, lst())))
    known('block_of_two', 0, script(Node(BLOCK, lst(s(), run(e())))))
    known('for_in_variable', 0, script(enumerate_in(b=0, c=1)))
    known('for_in_declared_variable', 0, script(enumerate_in(b=1, c=2)))
    known('for_in_register_0', 0, script(enumerate_in(b=2, c=0)))
    known('for_in_register_255', 0, script(enumerate_in(b=2, c=255)))
    known('for_in_register_255_without_strings', 0, script(enumerate_in(b=2, c=255), strings=[]))
    known('for_classic_without_initialize', 0, script(classic()))
    known('for_classic_with_initialize', 0, script(classic(Node(DECLARE, e(), a=0))))
    known('for_classic_of_empty_lists', 0, script(Node(FOR_IN, absent(), lst(), lst(), s(), a=1)))
    known('for_classic_of_longer_lists', 0, script(Node(FOR_IN, run(e()), lst(e(), e(), e()), lst(e(), e()), Node(BLOCK, lst(s())), a=1)))
    known('while', 0, script(Node(WHILE, e(), Node(BLOCK, lst()))))
    known('if_without_no', 0, script(Node(IF, e(), s(), absent())))
    known('if_with_no', 0, script(Node(IF, e(), s(), Node(CONTINUE))))
    known('break', 0, script(Node(BREAK)))
    known('continue', 0, script(Node(CONTINUE)))
    known('switch_empty', 0, script(Node(SWITCH, e(), lst())))
    known('switch_of_case_default_statement', 0, script(Node(SWITCH, e(), lst(case(), s(), default(), run(e())))))
    known('switch_of_statements_only', 0, script(Node(SWITCH, e(), lst(s(), s()))))
    known('switch_of_two_defaults', 0, script(Node(SWITCH, e(), lst(default(), default()))))
    known('switch_of_cases_only', 0, script(Node(SWITCH, e(), lst(case(), case()))))

    for name, kind, count in PLAIN_EXPRESSIONS:
        known('expression_' + name, 0, script(run(Node(kind, *[e() for _ in range(count)]))))
    known('call_without_arguments', 0, script(run(Node(CALL, identifier(0), lst()))))
    known('call_with_arguments', 0, script(run(Node(CALL, identifier(0), lst(e(), integer(1))))))
    known('new_without_arguments', 0, script(run(Node(NEW, identifier(0), lst()))))
    known('new_with_arguments', 0, script(run(Node(NEW, identifier(0), lst(e(), integer(1))))))
    for operator in range(43):
        known('binary_operator_%d' % operator, 0, script(run(Node(BINARY, e(), e(), a=operator))))
    known('unary_sub', 0, script(run(Node(UNARY, e(), a=0))))
    known('unary_add', 0, script(run(Node(UNARY, e(), a=1))))
    known('unary_bit_not', 0, script(run(Node(UNARY, e(), a=2))))
    known('unary_increment_postfix', 0, script(run(Node(UNARY, e(), a=3, b=0))))
    known('unary_increment_prefix', 0, script(run(Node(UNARY, e(), a=3, b=1))))
    known('unary_decrement_postfix', 0, script(run(Node(UNARY, e(), a=4, b=0))))
    known('unary_decrement_prefix', 0, script(run(Node(UNARY, e(), a=4, b=1))))
    known('unary_logical_not', 0, script(run(Node(UNARY, e(), a=5))))
    known('init_object_empty', 0, script(run(Node(INIT_OBJECT, lst()))))
    known('init_object_of_two', 0, script(run(Node(INIT_OBJECT, lst(Node(OBJECT_FIELD, e(), a=0), Node(OBJECT_FIELD, e(), a=2))))))
    known('init_object_of_equal_keys', 0, script(run(Node(INIT_OBJECT, lst(Node(OBJECT_FIELD, e(), a=1), Node(OBJECT_FIELD, e(), a=1))))))
    known('init_array_empty', 0, script(run(Node(INIT_ARRAY, lst()))))
    known('init_array_of_two', 0, script(run(Node(INIT_ARRAY, lst(e(), e())))))
    known('function_without_name', 0, script(run(function())))
    known('function_with_first_name', 0, script(run(function(a=1))))
    known('function_with_last_name', 0, script(run(function(a=3))))
    known('function_without_name_or_strings', 0, script(run(function()), strings=[]))
    known('function_of_255_registers', 0, script(run(function(b=255))))
    for bit in range(9):
        known('function_mark_%d' % bit, 0, script(run(function(c=1 << bit))))
    known('function_of_all_marks', 0, script(run(function(c=511))))
    known('function_with_body', 0, script(run(function(Node(RETURN, lst(e())), s()))))
    known('parameter_without_register', 0, script(run(function(parameters=[Node(PARAMETER, a=0, b=0)]))))
    known('parameter_of_register_0', 0, script(run(function(parameters=[Node(PARAMETER, a=0, b=1)]))))
    known('parameter_of_register_255', 0, script(run(function(parameters=[Node(PARAMETER, a=2, b=256)]))))
    known('two_parameters_of_one_name', 0, script(run(function(parameters=[Node(PARAMETER, a=2, b=2), Node(PARAMETER, a=2, b=0)]))))
    known('goto_frame_and_stop', 0, script(run(Node(GOTO_FRAME, integer(1), a=0))))
    known('goto_frame_and_play', 0, script(run(Node(GOTO_FRAME, integer(1), a=1))))
    known('start_drag_without_constraints', 0, script(run(Node(START_DRAG, e(), lst(), a=0))))
    known('start_drag_with_lock', 0, script(run(Node(START_DRAG, e(), lst(), a=1))))
    known('start_drag_with_constraints', 0, script(run(Node(START_DRAG, e(), lst(e(), e(), e(), e()), a=1))))
    for value in (0, 22, MOST):
        known('get_property_%x' % value, 0, script(run(Node(GET_PROPERTY, e(), a=value))))
        known('set_property_%x' % value, 0, script(run(Node(SET_PROPERTY, e(), e(), a=value))))

    known('constant_string_first', 0, script(run(string(0))))
    known('constant_string_last', 0, script(run(string(2))))
    known('constant_identifier_first', 0, script(run(identifier(0))))
    known('constant_identifier_last', 0, script(run(identifier(2))))
    known('constant_float_0', 0, script(run(Node(CONSTANT, a=2))))
    known('constant_float_1_5', 0, script(run(Node(CONSTANT, a=2, b=0, c=0x3FF80000))))
    known('constant_float_of_all_bits', 0, script(run(Node(CONSTANT, a=2, b=MOST, c=MOST))))
    known('constant_float_low_word_only', 0, script(run(Node(CONSTANT, a=2, b=1))))
    for value in (0, 1, -1, 2147483647, -2147483648):
        known('constant_integer_%d' % value, 0, script(run(integer(value))))
    known('constant_false', 0, script(run(Node(CONSTANT, a=4, b=0))))
    known('constant_true', 0, script(run(Node(CONSTANT, a=4, b=1))))
    known('constant_register_0', 0, script(run(Node(CONSTANT, a=5, b=0))))
    known('constant_register_255', 0, script(run(Node(CONSTANT, a=5, b=255))))


def layout_files():
    empty = script(strings=[])
    known('no_bytes', 1, b'')
    known('one_byte', 1, b'\1')
    known('too_short_for_a_trailer', 1, empty[-19:])
    known('trailer_only_of_one_record', 1, empty[-20:])
    known('trailer_only_without_records', 1, of_records())
    known('trailer_only_of_zeros', 1, bytes(20))
    known('strings_without_records', 1, of_records(strings=[b'a']))
    known('first_byte_missing', 1, a_equals_80()[1:])
    known('first_word_missing', 1, a_equals_80()[4:])
    known('last_byte_missing', 1, a_equals_80()[:-1])
    known('last_word_missing', 1, a_equals_80()[:-4])
    known('trailer_missing', 1, a_equals_80()[:-20])
    known('a_byte_after_the_trailer', 1, script(after=b'\0'))
    known('a_word_after_the_trailer', 1, script(after=bytes(4)))
    known('a_second_trailer', 1, script(after=script()[-20:]))
    for edition in (0, 2, 257, 0x01000000, MOST):
        known('edition_%x' % edition, 1, script(edition=edition))

    # script(s()): ends of 12 bytes, records of 40
    for off in (-40, -20, -4, -1, 1, 4, 20):
        known('record_distance_off_by_%d' % off, 1, script(s(), record_distance=40 + off))
        known('end_distance_off_by_%d' % off, 1, script(s(), end_distance=52 + off))
        known('both_distances_off_by_%d' % off, 1, script(s(), record_distance=40 + off, end_distance=52 + off))
    known('record_distance_the_largest', 1, script(s(), record_distance=MOST))
    known('end_distance_the_largest', 1, script(s(), end_distance=MOST))
    known('distances_exchanged', 1, script(s(), record_distance=52, end_distance=40))
    known('distances_in_words', 1, script(s(), record_distance=10, end_distance=13))
    known('distances_from_the_end', 1, script(s(), record_distance=60, end_distance=72))
    known('record_count_too_small', 1, script(s(), record_count=1))
    known('record_count_too_large', 1, script(s(), record_count=3))
    known('record_count_0', 1, script(s(), record_count=0))
    known('record_count_whose_bytes_wrap', 1, script(s(), record_count=2 + (1 << 30)))
    known('record_count_the_largest', 1, script(s(), record_count=MOST))
    known('string_count_too_small', 1, script(s(), string_count=2))
    known('string_count_too_large', 1, script(s(), string_count=4))
    known('string_count_0', 1, script(s(), string_count=0))
    known('string_count_whose_bytes_wrap', 1, script(s(), string_count=3 + (1 << 30)))
    known('string_count_the_largest', 1, script(s(), string_count=MOST))
    known('counts_exchanged', 1, script(s(), record_count=3, string_count=2))
    known('records_counted_into_the_ends', 1, script(s(), strings=[b''] * 5, record_count=3, string_count=0, record_distance=60, end_distance=60))
    known('first_record_left_out', 1, script(s(), record_count=1, record_distance=20, end_distance=32))
    known('more_records_than_bytes', 1, script(s(), strings=[], record_count=3, record_distance=60, end_distance=60))
    known('more_ends_than_bytes', 1, script(s(), strings=[], string_count=1, end_distance=44))
    for count in (1, 4, 20):
        gap = bytes(count)
        known('gap_of_%d_after_string_bytes' % count, 1, script(s(), after_strings=gap))
        known('gap_of_%d_after_ends' % count, 1, script(s(), after_ends=gap))
        known('gap_of_%d_after_records' % count, 1, script(s(), after_records=gap))
        known('%d_bytes_before_all' % count, 1, script(s(), before=gap))
    known('gap_after_ends_that_no_distance_counts', 1, script(s(), after_ends=bytes(4), end_distance=52))
    known('trailer_of_most_significant_byte_first', 1, script(strings=[])[:20] + struct.pack('>5I', 20, 20, 1, 0, 1))

    known('ends_fall', 1, script(s(), strings=[b'abc', b'', b''], ends=[2, 1, 3]))
    known('ends_fall_to_0', 1, script(s(), strings=[b'abc', b'', b''], ends=[3, 0, 3]))
    known('last_end_falls', 1, script(s(), strings=[b'abc', b'', b''], ends=[1, 3, 2]))
    known('first_end_over_all', 1, script(s(), strings=[b'abc', b'', b''], ends=[4, 3, 3]))
    known('last_end_too_small', 1, script(s(), strings=[b'abc', b'', b''], ends=[1, 2, 2]))
    known('last_end_too_large', 1, script(s(), strings=[b'abc', b'', b''], ends=[1, 2, 4]))
    known('last_end_the_largest', 1, script(s(), strings=[b'abc', b'', b''], ends=[1, 2, MOST]))
    known('all_ends_0', 1, script(s(), strings=[b'abc', b'', b''], ends=[0, 0, 0]))
    known('ends_count_from_1', 1, script(s(), strings=[b'a', b'b', b'c'], ends=[2, 3, 4]))
    known('starts_in_place_of_ends', 1, script(s(), strings=[b'a', b'b', b'c'], ends=[0, 1, 2]))
    known('lengths_in_place_of_ends', 1, script(s(), strings=[b'a', b'b', b'c'], ends=[1, 1, 1]))
    known('one_end_too_small', 1, script(s(), strings=[b'abc'], ends=[2]))
    known('one_end_too_large', 1, script(s(), strings=[b'abc'], ends=[4]))
    known('end_of_an_empty_string_not_0', 1, script(s(), strings=[b''], ends=[1]))
    known('bytes_without_strings', 1, script(s(), strings=[b'a'], ends=[]))
    known('four_bytes_without_strings', 1, script(s(), strings=[b'\0\0\0\0'], ends=[]))
    known('ends_may_stand_still', 0, script(s(), strings=[b'abc', b'', b''], ends=[3, 3, 3]))
    known('ends_may_start_at_0', 0, script(s(), strings=[b'abc', b'', b''], ends=[0, 0, 3]))


def root_files():
    known('root_is_a_block', 1, of_root(Node(BLOCK, lst())))
    known('root_is_a_statement', 1, of_root(s()))
    known('root_is_an_expression', 1, of_root(e()))
    known('root_is_absent', 1, of_root(absent()))
    known('root_is_a_parameter', 1, of_root(parameter()))
    known('root_is_a_field', 1, of_root(object_field()))
    known('root_is_a_case', 1, of_root(case()))
    known('root_is_a_default', 1, of_root(default()))
    known('root_is_a_try', 1, of_root(Node(TRY)))
    known('root_is_a_get_url', 1, of_root(Node(GET_URL)))
    known('root_is_an_unknown_kind', 1, of_root(Node(102)))
    known('root_lists_an_expression', 1, script(e()))
    known('root_lists_an_expression_after_a_statement', 1, script(s(), e()))
    known('root_lists_an_expression_before_a_statement', 1, script(e(), s()))
    known('root_lists_absent', 1, script(absent()))
    known('root_lists_a_list', 1, script(lst()))
    known('root_lists_a_field', 1, script(object_field()))
    known('root_lists_a_parameter', 1, script(parameter()))
    known('root_lists_a_case', 1, script(case()))
    known('root_lists_a_default', 1, script(default()))
    known('root_lists_a_get_url', 1, script(Node(GET_URL)))
    for size in (0, 1, 2, 4, 23, MOST):
        known('root_of_three_records_says_size_%d' % size, 1, of_root(lst(s(), s(), size=size)))
    known('root_alone_says_size_0', 1, of_root(lst(size=0)))
    known('root_alone_says_size_2', 1, of_root(lst(size=2)))
    known('root_counts_one_less', 1, of_root(lst(s(), s(), a=1)))
    known('root_counts_one_more', 1, of_root(lst(s(), s(), a=3)))
    known('root_counts_records_and_not_children', 1, of_root(lst(run(e()), a=2)))
    known('root_counts_the_most', 1, of_root(lst(s(), a=MOST)))
    known('root_has_b', 1, of_root(lst(s(), b=1)))
    known('root_has_c', 1, of_root(lst(s(), c=1)))
    known('two_roots', 1, of_records((LIST, 0, 0, 0, 1), (LIST, 0, 0, 0, 1)))
    known('root_before_its_children', 1, of_records((LIST, 1, 0, 0, 2), (BREAK, 0, 0, 0, 1)))
    known('a_record_before_the_root_that_is_no_child', 1, of_records((BREAK, 0, 0, 0, 1), (LIST, 0, 0, 0, 1)))


def size_files():
    leaf = (BREAK, 0, 0, 0, 1)
    known('leaf_of_size_0', 1, of_root(lst(Node(BREAK, size=0))))
    known('second_leaf_of_size_0', 1, of_root(lst(s(), Node(BREAK, size=0))))
    known('first_leaf_of_size_0', 1, of_root(lst(Node(BREAK, size=0), s())))
    known('first_leaf_of_size_2', 1, of_root(lst(Node(BREAK, size=2), s())))
    known('first_leaf_of_the_largest_size', 1, of_root(lst(Node(BREAK, size=MOST), s())))
    known('second_leaf_takes_the_first', 1, of_root(lst(s(), Node(BREAK, size=2))))
    known('second_leaf_takes_the_first_and_the_list_counts_one', 1, of_root(lst(s(), Node(BREAK, size=2), a=1)))
    known('statement_leaves_its_expression_out', 1, of_root(lst(Node(EXPR, e(), size=1))))
    known('statement_leaves_its_expression_out_and_the_list_counts_two', 1, of_root(lst(Node(EXPR, e(), size=1), a=2)))
    known('statement_larger_than_what_is_left', 1, of_root(lst(Node(EXPR, e(), size=3))))
    known('statement_takes_its_brother', 1, of_root(lst(s(), Node(EXPR, e(), size=3))))
    known('children_overlap', 1, of_root(lst(run(e()), Node(EXPR, e(), size=3))))
    known('child_takes_its_brother', 1, script(run(Node(SET_VARIABLE, e(), Node(GET_TIME, size=2)))))
    known('child_takes_its_brother_as_its_own_child', 1, script(run(Node(SET_VARIABLE, e(), Node(VOID, size=2)))))
    known('brother_taken_as_a_true_child', 0, script(run(Node(DELETE, Node(VOID, e())))))
    known('second_child_reaches_into_the_first', 1, of_records(
        (GET_TIME, 0, 0, 0, 1), (VOID, 0, 0, 0, 2), (GET_TIME, 0, 0, 0, 1), (VOID, 0, 0, 0, 3), (SET_VARIABLE, 0, 0, 0, 5),
        (EXPR, 0, 0, 0, 6), (LIST, 1, 0, 0, 7)))
    known('sizes_whose_sum_wraps', 1, of_records((BREAK, 0, 0, 0, 0x80000000), (BREAK, 0, 0, 0, 0x80000001), (LIST, 2, 0, 0, 3)))
    known('size_that_wraps_to_the_end', 1, of_records(leaf, (BREAK, 0, 0, 0, MOST), (LIST, 2, 0, 0, 3)))
    known('size_in_bytes', 1, of_root(lst(Node(BREAK, size=20))))
    known('size_of_children_alone', 1, of_root(lst(Node(EXPR, Node(VOID, e(), size=1), size=2), size=3)))
    known('children_after_their_parent', 1, of_records((EXPR, 0, 0, 0, 2), (GET_TIME, 0, 0, 0, 1), (LIST, 1, 0, 0, 3)))
    known('children_in_the_wrong_order', 1, script(Node(WHILE, s(), e())))
    known('call_with_arguments_first', 1, script(run(Node(CALL, lst(), e()))))
    known('function_with_body_first', 1, script(run(Node(FUNCTION, lst(s()), lst(parameter())))))
    known('inner_list_counts_one_less', 1, script(Node(BLOCK, lst(s(), s(), a=1))))
    known('inner_list_counts_one_more', 1, script(Node(BLOCK, lst(s(), a=2))))
    known('inner_list_counts_0_of_one', 1, script(Node(RETURN, lst(e(), a=0))))
    known('inner_list_counts_one_of_none', 1, script(Node(RETURN, lst(a=1))))
    known('inner_list_has_b', 1, script(Node(RETURN, lst(e(), b=1))))
    known('inner_list_has_c', 1, script(Node(RETURN, lst(e(), c=1))))


# every kind with its children, for the files that miss one or have one more: name, kind, words, children
def shapes():
    one = [(n, k, {}, [e() for _ in range(c)]) for n, k, c in PLAIN_EXPRESSIONS]
    return one + [
        ('constant', CONSTANT, {'a': 3}, []), ('call', CALL, {}, [e(), lst()]), ('new', NEW, {}, [e(), lst()]),
        ('binary', BINARY, {}, [e(), e()]), ('unary', UNARY, {}, [e()]), ('init_object', INIT_OBJECT, {}, [lst()]),
        ('init_array', INIT_ARRAY, {}, [lst()]), ('function', FUNCTION, {}, [lst(), lst()]), ('goto_frame', GOTO_FRAME, {}, [e()]),
        ('start_drag', START_DRAG, {}, [e(), lst()]), ('get_property', GET_PROPERTY, {}, [e()]), ('set_property', SET_PROPERTY, {}, [e(), e()]),
        ('declare', DECLARE, {}, [absent()]), ('return', RETURN, {}, [lst()]), ('throw', THROW, {}, [lst()]), ('expr', EXPR, {}, [e()]),
        ('block', BLOCK, {}, [lst()]), ('for_in', FOR_IN, {}, [e(), s()]), ('for_classic', FOR_IN, {'a': 1}, [absent(), lst(), lst(), s()]),
        ('while', WHILE, {}, [e(), s()]), ('if', IF, {}, [e(), s(), absent()]), ('break', BREAK, {}, []), ('continue', CONTINUE, {}, []),
        ('switch', SWITCH, {}, [e(), lst()])]


def around_field(child):
    return script(run(Node(INIT_OBJECT, lst(Node(OBJECT_FIELD, child, a=1)))))


# where an expression stands in something that is not a statement or an expression itself
EXPRESSION_PLACES = [
    ('returned', lambda x: script(Node(RETURN, lst(x)))), ('thrown', lambda x: script(Node(THROW, lst(e(), x)))),
    ('argument', lambda x: script(run(Node(CALL, e(), lst(e(), x))))), ('new_argument', lambda x: script(run(Node(NEW, e(), lst(x, e()))))),
    ('array_element', lambda x: script(run(Node(INIT_ARRAY, lst(x, e()))))), ('field_value', around_field),
    ('case_value', lambda x: script(Node(SWITCH, e(), lst(Node(CASE, x))))),
    ('for_condition', lambda x: script(Node(FOR_IN, absent(), lst(e(), x), lst(), s(), a=1))),
    ('for_update', lambda x: script(Node(FOR_IN, absent(), lst(), lst(x), s(), a=1))),
    ('drag_constraint', lambda x: script(run(Node(START_DRAG, e(), lst(e(), e(), x, e())))))]

STATEMENT_PLACES = [('block_element', lambda x: script(Node(BLOCK, lst(x)))), ('function_body', lambda x: script(run(function(s(), x))))]

NOT_EXPRESSIONS = [('statement', s), ('absent', absent), ('list', lst), ('field', object_field), ('parameter', parameter), ('case', case),
                   ('default', default), ('try', lambda: Node(TRY))]
NOT_STATEMENTS = [('expression', e), ('absent', absent), ('list', lst), ('field', object_field), ('parameter', parameter), ('case', case),
                  ('default', default), ('get_url', lambda: Node(GET_URL))]

NOT_LISTS = [('expression', e), ('statement', s), ('absent', absent), ('field', object_field), ('parameter', parameter), ('case', case), ('default', default)]
NOT_OPTIONAL = [('list', lst), ('field', object_field), ('parameter', parameter), ('case', case), ('default', default)]


def child_files():
    for name, kind, words, children in shapes():
        def whole(parts):
            node = Node(kind, *parts, **words)
            return script(node) if kind < 32 else script(run(node))
        if children:
            known('%s_misses_its_last_child' % name, 1, whole(children[:-1]))
        known('%s_has_one_child_more' % name, 1, whole(children + [e()]))
    known('absent_has_a_child', 1, script(Node(DECLARE, Node(ABSENT, e()))))
    known('parameter_has_a_child', 1, script(run(function(parameters=[Node(PARAMETER, e(), a=1)]))))
    known('default_has_a_child', 1, script(Node(SWITCH, e(), lst(Node(DEFAULT, e())))))
    known('case_has_no_child', 1, script(Node(SWITCH, e(), lst(Node(CASE)))))
    known('case_has_two_children', 1, script(Node(SWITCH, e(), lst(Node(CASE, e(), e())))))
    known('case_has_a_body', 1, script(Node(SWITCH, e(), lst(Node(CASE, e(), s())))))
    known('field_has_no_child', 1, script(run(Node(INIT_OBJECT, lst(Node(OBJECT_FIELD, a=1))))))
    known('field_has_two_children', 1, script(run(Node(INIT_OBJECT, lst(Node(OBJECT_FIELD, e(), e(), a=1))))))

    # each child of each kind, by something of another sort in turn
    turn = 0
    for name, kind, words, children in shapes():
        for i, child in enumerate(children):
            wrong = {GET_TIME: NOT_EXPRESSIONS, BREAK: NOT_STATEMENTS, LIST: NOT_LISTS, ABSENT: NOT_OPTIONAL}[child.kind]
            other, filler = wrong[turn % len(wrong)]
            turn += 1
            node = Node(kind, *children[:i], filler(), *children[i + 1:], **words)
            known('%s_child_%d_is_%s' % (name, i, other), 1, script(node) if kind < 32 else script(run(node)))
    for i, (place, make) in enumerate(EXPRESSION_PLACES):
        for j in range(4):
            name, filler = NOT_EXPRESSIONS[(4 * i + j) % 8]
            known('%s_is_%s' % (place, name), 1, make(filler()))
    for place, make in STATEMENT_PLACES:
        for name, filler in NOT_STATEMENTS:
            known('%s_is_%s' % (place, name), 1, make(filler()))
    for name, filler in [('statement', s), ('list', lst), ('field', object_field), ('parameter', parameter), ('case', case), ('try', lambda: Node(TRY))]:
        known('declared_value_is_%s' % name, 1, script(Node(DECLARE, filler())))
    for name, filler in [('expression', e), ('list', lst), ('default', default), ('get_url', lambda: Node(GET_URL))]:
        known('if_no_is_%s' % name, 1, script(Node(IF, e(), s(), filler())))
        known('initialize_is_%s' % name, 1, script(classic(filler())))
    for name, filler in [('expression', e), ('absent', absent), ('statement', s), ('field', object_field)]:
        known('arguments_are_%s_and_no_list' % name, 1, script(run(Node(CALL, e(), filler()))))
        known('block_of_%s_and_no_list' % name, 1, script(Node(BLOCK, filler())))
        known('fields_are_%s_and_no_list' % name, 1, script(run(Node(INIT_OBJECT, filler()))))
        known('constraints_are_%s_and_no_list' % name, 1, script(run(Node(START_DRAG, e(), filler()))))
        known('elements_are_%s_and_no_list' % name, 1, script(Node(SWITCH, e(), filler())))
        known('parameters_are_%s_and_no_list' % name, 1, script(run(Node(FUNCTION, filler(), lst()))))
        known('body_is_%s_and_no_list' % name, 1, script(run(Node(FUNCTION, lst(), filler()))))
    known('parameters_are_one_parameter_and_no_list', 1, script(run(Node(FUNCTION, parameter(), lst()))))
    for name, filler in [('expression', e), ('statement', s), ('absent', absent), ('list', lst), ('parameter', parameter)]:
        known('fields_list_%s' % name, 1, script(run(Node(INIT_OBJECT, lst(object_field(), filler())))))
    for name, filler in [('expression', e), ('statement', s), ('absent', absent), ('list', lst), ('field', object_field)]:
        known('parameters_list_%s' % name, 1, script(run(function(parameters=[filler(), parameter()]))))
    for name, filler in [('expression', e), ('absent', absent), ('list', lst), ('field', object_field), ('parameter', parameter), ('get_url', lambda: Node(GET_URL))]:
        known('switch_lists_%s' % name, 1, script(Node(SWITCH, e(), lst(case(), filler()))))
    for count in (1, 2, 3, 5, 8):
        known('constraints_of_%d' % count, 1, script(run(Node(START_DRAG, e(), lst(*[e() for _ in range(count)])))))
    known('constraints_of_3_that_count_4', 1, script(run(Node(START_DRAG, e(), lst(e(), e(), e(), a=4)))))
    known('for_in_with_classic_children', 1, script(classic(a=0)))
    known('for_classic_with_enumerate_children', 1, script(enumerate_in(a=1)))


def word_files():
    for kind in list(range(16, 32)):
        known('kind_%d_as_a_statement' % kind, 1, script(Node(kind)))
    for kind in list(range(78, 96)):
        known('kind_%d_as_an_expression' % kind, 1, script(run(Node(kind))))
    for kind in (102, 103, 128, 256, 0x10008, 0x80000008, MOST):
        known('kind_%x_as_a_statement' % kind, 1, script(Node(kind)))
    for kind in (0x10027, 0x80000027):
        known('kind_%x_as_an_expression' % kind, 1, script(run(Node(kind))))

    # each kind whose words are not used: one of a, b, c in turn
    plain = [x for x in shapes() if x[0] not in (
        'constant', 'binary', 'unary', 'function', 'goto_frame', 'start_drag', 'get_property', 'set_property', 'declare', 'for_in', 'for_classic')]
    for i, (name, kind, _, children) in enumerate(plain):
        letter = 'abc'[i % 3]
        node = Node(kind, *children, **{letter: 1})
        known('%s_has_%s' % (name, letter), 1, script(node) if kind < 32 else script(run(node)))
    for letter in 'abc':
        one, high = {letter: 1}, {letter: 0x80000000}
        known('absent_has_%s' % letter, 1, script(Node(DECLARE, Node(ABSENT, **one))))
        known('case_has_%s' % letter, 1, script(Node(SWITCH, e(), lst(Node(CASE, e(), **one)))))
        known('default_has_%s' % letter, 1, script(Node(SWITCH, e(), lst(Node(DEFAULT, **one)))))
        known('break_has_high_%s' % letter, 1, script(Node(BREAK, **high)))
        known('play_has_high_%s' % letter, 1, script(run(Node(PLAY, **high))))
    for letter in 'bc':
        one = {letter: 1}
        known('declare_has_%s' % letter, 1, script(Node(DECLARE, absent(), **one)))
        known('binary_has_%s' % letter, 1, script(run(Node(BINARY, e(), e(), **one))))
        known('goto_frame_has_%s' % letter, 1, script(run(Node(GOTO_FRAME, e(), **one))))
        known('start_drag_has_%s' % letter, 1, script(run(Node(START_DRAG, e(), lst(), **one))))
        known('get_property_has_%s' % letter, 1, script(run(Node(GET_PROPERTY, e(), **one))))
        known('set_property_has_%s' % letter, 1, script(run(Node(SET_PROPERTY, e(), e(), **one))))
        known('field_record_has_%s' % letter, 1, script(run(Node(INIT_OBJECT, lst(Node(OBJECT_FIELD, e(), **one))))))
        known('for_classic_has_%s' % letter, 1, script(classic(**one)))
    known('unary_has_c', 1, script(run(Node(UNARY, e(), a=3, c=1))))
    known('parameter_has_c', 1, script(run(function(parameters=[Node(PARAMETER, c=1)]))))
    for place, name in [(0, 'string'), (1, 'identifier'), (3, 'integer'), (4, 'boolean'), (5, 'register')]:
        known('constant_%s_has_c' % name, 1, script(run(Node(CONSTANT, a=place, c=1))))

    for value in (43, 256, MOST):
        known('binary_operator_%x_is_none' % value, 1, script(run(Node(BINARY, e(), e(), a=value))))
    for value in (6, 7, MOST):
        known('unary_operator_%x_is_none' % value, 1, script(run(Node(UNARY, e(), a=value))))
    for value, name in [(0, 'sub'), (1, 'add'), (2, 'bit_not'), (5, 'logical_not')]:
        known('unary_%s_with_an_affix' % name, 1, script(run(Node(UNARY, e(), a=value, b=1))))
    for value, name in [(3, 'increment'), (4, 'decrement')]:
        known('unary_%s_of_affix_2' % name, 1, script(run(Node(UNARY, e(), a=value, b=2))))
    for value in (6, 7, MOST):
        known('constant_place_%x_is_none' % value, 1, script(run(Node(CONSTANT, a=value))))
    for value in (2, 256, MOST):
        known('constant_boolean_%x' % value, 1, script(run(Node(CONSTANT, a=4, b=value))))
        known('goto_frame_boolean_%x' % value, 1, script(run(Node(GOTO_FRAME, e(), a=value))))
        known('start_drag_boolean_%x' % value, 1, script(run(Node(START_DRAG, e(), lst(), a=value))))
    for value in (256, MOST):
        known('constant_register_%x' % value, 1, script(run(Node(CONSTANT, a=5, b=value))))
        known('for_in_register_%x' % value, 1, script(enumerate_in(b=2, c=value)))
        known('function_of_%x_registers' % value, 1, script(run(function(b=value))))
    for value in (512, 0x80000000, MOST):
        known('function_of_marks_%x' % value, 1, script(run(function(c=value))))
    for value in (257, MOST):
        known('parameter_register_%x' % value, 1, script(run(function(parameters=[Node(PARAMETER, b=value)]))))
    for value in (2, 256, MOST):
        known('for_in_a_%x' % value, 1, script(enumerate_in(a=value)))
        known('for_in_a_%x_with_classic_children' % value, 1, script(classic(a=value)))
    for value in (3, MOST):
        known('for_in_b_%x' % value, 1, script(enumerate_in(b=value)))

    # three strings: index 3 is none; 0 is none where there are no strings
    for index in (3, 4, MOST):
        known('string_index_%x' % index, 1, script(run(string(index))))
        known('identifier_index_%x' % index, 1, script(run(identifier(index))))
        known('declare_index_%x' % index, 1, script(Node(DECLARE, absent(), a=index)))
        known('for_in_index_%x' % index, 1, script(enumerate_in(b=0, c=index)))
        known('for_in_declared_index_%x' % index, 1, script(enumerate_in(b=1, c=index)))
        known('key_index_%x' % index, 1, script(run(Node(INIT_OBJECT, lst(Node(OBJECT_FIELD, e(), a=index))))))
        known('parameter_index_%x' % index, 1, script(run(function(parameters=[Node(PARAMETER, a=index)]))))
    for index in (4, MOST):
        known('function_name_plus_1_%x' % index, 1, script(run(function(a=index))))
    known('string_index_0_of_none', 1, script(run(string(0)), strings=[]))
    known('identifier_index_0_of_none', 1, script(run(identifier(0)), strings=[]))
    known('declare_index_0_of_none', 1, script(Node(DECLARE, absent()), strings=[]))
    known('for_in_index_0_of_none', 1, script(enumerate_in(), strings=[]))
    known('key_index_0_of_none', 1, script(run(Node(INIT_OBJECT, lst(Node(OBJECT_FIELD, e())))), strings=[]))
    known('parameter_index_0_of_none', 1, script(run(function(parameters=[Node(PARAMETER)])), strings=[]))
    known('function_name_plus_1_of_none', 1, script(run(function(a=1)), strings=[]))


def utf8_files():
    good = ['00', '7f', 'c280', 'dfbf', 'c2bf', 'df80', 'e0a080', 'e0bfbf', 'e18080', 'ecbfbf', 'ed8080', 'ed9fbf', 'ee8080', 'efbfbf', 'efbbbf',
            'efbfbe', 'f0908080', 'f0bfbfbf', 'f1808080', 'f3bfbfbf', 'f4808080', 'f48fbfbf', '61c3a962', 'e282acf09f98807f']
    for text in good:
        known('utf8_' + text, 0, script(strings=[bytes.fromhex(text)]))
    bad = ['80', 'bf', 'c0', 'c080', 'c0af', 'c1bf', 'c2', 'c27f', 'c2c0', 'df7f', 'dfc0', 'c241', 'e0', 'e0a0', 'e08080', 'e09fbf', 'e0c080',
           'e0a07f', 'e0a0c0', 'e17f80', 'e1c080', 'e1807f', 'e180c0', 'ec7fbf', 'ecbfc0', 'ed7f80', 'eda080', 'edafbf', 'edb080', 'edbfbf',
           'eda080edb080', 'ee7f80', 'eec080', 'efbf7f', 'efbfc0', 'f0', 'f090', 'f09080', 'f0808080', 'f08fbfbf', 'f0c08080', 'f0907f80',
           'f090c080', 'f090807f', 'f09080c0', 'f17f8080', 'f1c08080', 'f1807f80', 'f3bfbfc0', 'f4908080', 'f4bfbfbf', 'f47f8080', 'f48fbf7f',
           'f5808080', 'f7bfbfbf', 'f888808080', 'fc8480808080', 'fe', 'ff', 'c3a980', '61ff', 'ff61', 'c3c3a9', 'e282e282ac']
    for text in bad:
        known('not_utf8_' + text, 2, script(strings=[bytes.fromhex(text)]))
    known('character_cut_by_a_string_boundary', 2, script(strings=[b'\xc3', b'\xa9']))
    known('character_cut_between_other_letters', 2, script(strings=[b'a\xc3', b'\xa9b']))
    known('character_of_four_bytes_cut_in_half', 2, script(strings=[b'\xf0\x9f', b'\x98\x80']))
    known('cut_character_with_an_empty_string_between', 2, script(strings=[b'\xc3', b'', b'\xa9']))
    known('cut_character_at_the_end_of_the_last_string', 2, script(strings=[b'a', b'b\xe2\x82']))
    known('broken_unused_string', 2, script(run(string(0)), strings=[b'a', b'\xff']))
    known('broken_used_string', 2, script(run(string(0)), strings=[b'\xff', b'a']))
    known('broken_string_between_good_ones', 2, script(strings=[b'a', b'\x80', b'c']))
    known('broken_last_of_many', 2, script(strings=[b'a'] * 9 + [b'\xc0']))
    known('whole_characters_in_each_string', 0, script(strings=[b'\xc3\xa9', b'', b'\xf0\x9f\x98\x80', b'\xe2\x82\xac']))


REFUSED = [('try', TRY), ('wait_for_frame', WAIT_FOR_FRAME), ('tell_target', TELL_TARGET), ('inline_pcode', INLINE_PCODE), ('with', WITH), ('get_url', GET_URL)]


def refused_files():
    def held(node):
        return script(node) if node.kind < 32 else script(run(node))
    for name, kind in REFUSED:
        known('%s_without_children' % name, 3, held(Node(kind)))
        known('%s_of_any_words' % name, 3, held(Node(kind, a=MOST, b=0x80000000, c=99)))
        known('%s_over_one_of_each' % name, 3, held(Node(
            kind, e(), s(), lst(), absent(), object_field(), parameter(), case(), default(), Node(TRY), Node(GET_URL), a=7)))
        known('%s_over_a_list_of_any_kinds' % name, 3, held(Node(kind, lst(e(), s(), absent(), lst(parameter()), default(), case()))))
        known('%s_over_a_broken_record' % name, 1, held(Node(kind, Node(BREAK, a=1))))
        known('%s_over_an_unknown_kind' % name, 1, held(Node(kind, e(), Node(102))))
        known('%s_over_a_list_that_counts_wrong' % name, 1, held(Node(kind, lst(e(), a=2))))
        known('%s_of_size_0' % name, 1, held(Node(kind, size=0)))
        known('%s_that_leaves_a_child_out' % name, 1, held(Node(kind, e(), s(), size=2)))
        known('%s_larger_than_what_is_left' % name, 1, held(Node(kind, e(), size=9)))
    known('try_as_written_by_the_rust', 3, script(Node(TRY, lst(s()), lst(), absent(), lst())))
    known('wait_for_frame_as_written_by_the_rust', 3, script(Node(WAIT_FOR_FRAME, e(), absent(), s())))
    known('tell_target_as_written_by_the_rust', 3, script(Node(TELL_TARGET, e(), s())))
    known('inline_pcode_as_written_by_the_rust', 3, script(Node(INLINE_PCODE, a=0)))
    known('with_as_written_by_the_rust', 3, script(Node(WITH, e(), s())))
    known('get_url_as_written_by_the_rust', 3, script(run(Node(GET_URL, e(), e(), a=0, b=1, c=2))))
    known('refused_string_index_over_the_count', 3, script(Node(INLINE_PCODE, a=3), strings=[]))

    known('try_in_a_block', 3, script(Node(BLOCK, lst(s(), Node(TRY)))))
    known('with_as_a_body', 3, script(Node(WHILE, e(), Node(WITH))))
    known('try_as_an_else', 3, script(Node(IF, e(), s(), Node(TRY))))
    known('try_as_an_initialize', 3, script(classic(Node(TRY))))
    known('with_in_a_switch', 3, script(Node(SWITCH, e(), lst(case(), Node(WITH)))))
    known('inline_pcode_in_a_function', 3, script(run(function(Node(INLINE_PCODE)))))
    known('get_url_as_an_argument', 3, script(run(Node(CALL, e(), lst(Node(GET_URL))))))
    known('get_url_as_a_condition', 3, script(Node(WHILE, Node(GET_URL), s())))
    known('get_url_as_a_declared_value', 3, script(Node(DECLARE, Node(GET_URL), a=0)))
    known('get_url_as_a_field_value', 3, around_field(Node(GET_URL)))
    known('get_url_as_a_case_value', 3, script(Node(SWITCH, e(), lst(Node(CASE, Node(GET_URL))))))
    known('get_url_as_a_constraint', 3, script(run(Node(START_DRAG, e(), lst(e(), Node(GET_URL), e(), e())))))
    known('get_url_as_a_statement', 1, script(Node(GET_URL)))
    known('get_url_as_a_parameter', 1, script(run(function(parameters=[Node(GET_URL)]))))
    known('with_as_an_expression', 1, script(run(Node(WITH))))
    known('try_as_a_field_value', 1, around_field(Node(TRY)))
    known('try_as_a_list', 1, script(Node(BLOCK, Node(TRY))))
    known('tell_target_as_an_argument', 1, script(run(Node(CALL, e(), lst(Node(TELL_TARGET))))))
    known('wait_for_frame_as_a_declared_value', 1, script(Node(DECLARE, Node(WAIT_FOR_FRAME), a=0)))

    known('refused_below_refused', 3, script(Node(TRY, Node(WITH, Node(GET_URL)))))
    known('broken_far_below_refused', 1, script(Node(TRY, Node(WITH, Node(GET_URL, Node(VOID, Node(GET_TIME, c=1)))))))
    known('wrong_sort_below_a_child_of_refused', 1, script(Node(TRY, Node(VOID, s()))))
    known('missing_child_below_refused', 1, script(Node(TRY, Node(VOID))))
    known('string_index_below_refused', 1, script(Node(TRY, string(3))))
    known('case_without_value_below_refused', 1, script(Node(TRY, Node(CASE))))
    known('absent_with_a_word_below_refused', 1, script(Node(TRY, Node(ABSENT, a=1))))
    known('constraints_of_2_as_a_list_below_refused', 3, script(Node(TRY, lst(e(), e()))))
    known('child_of_size_0_below_refused', 1, script(Node(TRY, Node(BREAK, size=0))))
    known('children_overlap_below_refused', 1, script(Node(TRY, e(), Node(GET_TIME, size=3))))
    known('first_child_of_size_2_below_refused', 1, script(Node(TRY, Node(GET_TIME, size=2), e())))
    known('refused_takes_its_brother', 1, script(s(), Node(TRY, size=2)))
    known('refused_takes_its_brother_and_the_list_counts_one', 3, of_root(lst(s(), Node(TRY, size=2), a=1)))
    known('neighbours_of_the_refused_kinds', 0, script(Node(CONTINUE), Node(SWITCH, e(), lst()), run(Node(GOTO_FRAME, e())), run(Node(CAST_TO_INTEGER, e()))))


def depth_files():
    # the root is at depth 1, its statement at 2, the leaf below n voids at n + 3
    known('depth_3', 0, script(run(e())))
    known('depth_127', 0, script(run(voids(124, e()))))
    known('depth_128', 0, script(run(voids(125, e()))))
    known('depth_129', 4, script(run(voids(126, e()))))
    known('depth_130', 4, script(run(voids(127, e()))))
    known('depth_200', 4, script(run(voids(197, e()))))
    # each block adds two: itself and its list. Below 63 blocks and the root a statement is at 128
    known('depth_128_by_lists', 0, script(blocks(63, s())))
    known('depth_129_by_an_empty_list', 4, script(blocks(63, Node(BLOCK, lst()))))
    known('depth_129_by_an_expression', 4, script(blocks(63, run(e()))))
    known('depth_129_by_absent', 4, script(blocks(63, Node(DECLARE, absent()))))
    known('depth_128_by_absent', 0, script(run(voids(122, function(Node(DECLARE, absent()))))))
    known('depth_129_by_absent_in_a_function', 4, script(run(voids(123, function(Node(DECLARE, absent()))))))
    known('depth_128_by_empty_lists_of_a_function', 0, script(run(voids(124, function()))))
    known('depth_129_by_empty_lists_of_a_function', 4, script(run(voids(125, function()))))
    known('depth_128_by_a_parameter', 0, script(run(voids(123, function(parameters=[parameter()])))))
    known('depth_129_by_a_parameter', 4, script(run(voids(124, function(parameters=[parameter()])))))
    known('depth_128_by_a_field_value', 0, script(run(voids(122, Node(INIT_OBJECT, lst(object_field()))))))
    known('depth_129_by_a_field_value', 4, script(run(voids(123, Node(INIT_OBJECT, lst(object_field()))))))
    known('depth_129_in_the_first_of_two', 4, script(run(voids(126, e())), s()))
    known('depth_129_in_the_last_of_two', 4, script(s(), run(voids(126, e()))))
    known('depth_128_twice', 0, script(run(voids(125, e())), run(voids(125, e()))))
    known('depth_129_in_a_left_operand', 4, script(run(Node(BINARY, voids(125, e()), e()))))
    known('depth_128_in_both_operands', 0, script(run(Node(BINARY, voids(124, e()), voids(124, e())))))


def records_bytes(*records):
    return b''.join(word(w) for r in records for w in r)


def trailer(record_distance, end_distance, record_count, string_count, edition=1):
    return b''.join(word(w) for w in (record_distance, end_distance, record_count, string_count, edition))


def large_files():
    root = records_bytes((LIST, 0, 0, 0, 1))
    leaf = records_bytes((BREAK, 0, 0, 0, 1))

    def long_string(count, last=b'', root=root, edition=1):
        """One string of `count` letters and `last`, and the records of `root`."""
        n = len(root) // 20
        return [(b'a', count), (last + word(count + len(last)) + root + trailer(20 * n, 20 * n + 4, n, 1, edition), 1)]
    # 4 bytes of ends, 20 of records, 20 of trailer
    known('a_file_of_1048575_bytes', 0, long_string(1048531))
    known('a_file_of_1048576_bytes', 0, long_string(1048532))
    known('a_file_of_1048577_bytes', 4, long_string(1048533))
    known('zeros_of_1048576_bytes', 1, [(b'\0', 1048576)])
    known('zeros_of_1048577_bytes', 4, [(b'\0', 1048577)])
    known('over_the_bytes_and_a_broken_rule', 4, long_string(1048533, edition=2))
    known('over_the_bytes_and_not_utf8', 4, long_string(1048532, last=b'\xff'))
    refused = records_bytes((TRY, 0, 0, 0, 1), (LIST, 1, 0, 0, 2))
    known('over_the_bytes_and_unsupported', 4, long_string(1048513, root=refused))
    known('at_the_bytes_and_unsupported', 3, long_string(1048512, root=refused))
    known('at_the_bytes_and_not_utf8', 2, long_string(1048531, last=b'\xff'))
    known('at_the_bytes_and_a_broken_rule', 1, long_string(1048532, edition=2))
    known('over_the_bytes_and_all_else', 4, long_string(1048513, last=b'\xff', root=refused, edition=0))

    def wide(count, listed, last=b''):
        return [(leaf, count), (last + records_bytes((LIST, listed, 0, 0, count + 1 + len(last) // 20)) + trailer(
            20 * (count + 1) + len(last), 20 * (count + 1) + len(last), count + 1 + len(last) // 20, 0), 1)]
    known('wide_1000', 0, wide(1000, 1000))
    known('wide_1000_counts_one_less', 1, wide(1000, 999))
    known('wide_1000_last_is_an_expression', 1, wide(1000, 1001, records_bytes((GET_TIME, 0, 0, 0, 1))))
    known('wide_1000_last_is_a_try', 3, wide(1000, 1001, records_bytes((TRY, 0, 0, 0, 1))))
    known('wide_of_the_most_records', 0, wide(52426, 52426))
    known('wide_of_the_most_records_counts_one_more', 1, wide(52426, 52427))
    known('wide_of_one_record_too_many', 4, wide(52427, 52427))
    # (1048576 - 40) / 4 empty strings
    known('as_many_empty_strings_as_fit', 0, [(bytes(4), 262134), (root + trailer(20, 20 + 4 * 262134, 1, 262134), 1)])
    known('one_empty_string_too_many', 4, [(bytes(4), 262135), (root + trailer(20, 20 + 4 * 262135, 1, 262135), 1)])
    known('many_empty_strings_and_one_end_too_large', 1, [(bytes(4), 5000), (word(1) + root + trailer(20, 20 + 4 * 5001, 1, 5001), 1)])


def order_files():
    deep = run(voids(126, e()))
    known('order_1_before_2_trailer', 1, script(strings=[b'\xff'], edition=2))
    known('order_1_before_2_ends', 1, script(strings=[b'\xff\xff'], ends=[1]))
    known('order_1_before_2_record', 1, script(Node(BREAK, a=1), strings=[b'\xff']))
    known('order_1_before_2_index', 1, script(run(string(1)), strings=[b'\xff']))
    known('order_1_before_3_after_it', 1, script(Node(TRY), Node(BREAK, a=1)))
    known('order_1_before_3_before_it', 1, script(Node(BREAK, a=1), Node(TRY)))
    known('order_1_before_3_trailer', 1, script(Node(TRY), edition=0))
    known('order_1_before_3_root', 1, script(Node(TRY), e()))
    known('order_1_before_depth_word', 1, script(deep, Node(BREAK, a=1)))
    known('order_1_before_depth_at_the_leaf', 1, script(run(voids(126, Node(GET_TIME, a=1)))))
    known('order_1_before_depth_trailer', 1, script(deep, edition=0))
    known('order_2_before_3', 2, script(Node(TRY), strings=[b'\xff']))
    known('order_2_before_3_get_url', 2, script(run(Node(GET_URL)), strings=[b'a', b'\xc0']))
    known('order_2_before_depth', 2, script(deep, strings=[b'\xff']))
    known('order_3_before_depth', 3, script(deep, Node(TRY)))
    known('order_3_before_depth_below_it', 3, script(Node(TRY, voids(130, e()))))
    known('order_3_before_depth_at_the_leaf', 3, script(run(voids(126, Node(GET_URL)))))
    known('order_1_before_2_and_3', 1, script(Node(TRY, Node(BREAK, a=1)), strings=[b'\xff']))
    known('order_2_before_3_and_depth', 2, script(Node(TRY, voids(130, e())), strings=[b'\xff']))
    known('order_1_before_all', 1, script(Node(TRY, voids(130, Node(GET_TIME, a=1))), strings=[b'\xff']))


def all_files():
    for make in (valid_files, layout_files, root_files, size_files, child_files, word_files, utf8_files, refused_files, depth_files, large_files, order_files):
        make()
    return FILES


# ---------------------------------------------------------------- a plain checker, from document 01

# kinds that have no words and only expressions below them: how many
ONLY_EXPRESSIONS = {kind: count for _, kind, count in PLAIN_EXPRESSIONS}
ONLY_EXPRESSIONS.update({EXPR: 1, BREAK: 0, CONTINUE: 0, CASE: 1, DEFAULT: 0, ABSENT: 0})


def is_refused(kind):
    return 10 <= kind <= 14 or kind == GET_URL


def is_statement(kind):
    return kind <= 15


def is_expression(kind):
    return 32 <= kind <= 77


def record_is_good(kind, a, b, c, children, strings):
    """A record by its own rule. `children` are pairs: a kind, and for a list the kinds in it."""
    kinds = [k for k, _ in children]

    def expressions(*places):
        return all(is_expression(kinds[i]) for i in places)

    def list_of(i, test):
        return kinds[i] == LIST and all(test(k) for k in children[i][1])

    if is_refused(kind):
        return True
    if kind == LIST:
        return a == len(kinds) and b == 0 and c == 0
    if kind in ONLY_EXPRESSIONS:
        return a == b == c == 0 and len(kinds) == ONLY_EXPRESSIONS[kind] and all(is_expression(k) for k in kinds)
    if kind == DECLARE:
        return a < strings and b == c == 0 and len(kinds) == 1 and (kinds[0] == ABSENT or expressions(0))
    if kind in (RETURN, THROW, INIT_ARRAY):
        return a == b == c == 0 and len(kinds) == 1 and list_of(0, is_expression)
    if kind == BLOCK:
        return a == b == c == 0 and len(kinds) == 1 and list_of(0, is_statement)
    if kind == FOR_IN and a == 0:
        return (b < 3 and c < (256 if b == 2 else strings)) and len(kinds) == 2 and expressions(0) and is_statement(kinds[1])
    if kind == FOR_IN and a == 1:
        return (b == c == 0 and len(kinds) == 4 and (kinds[0] == ABSENT or is_statement(kinds[0])) and list_of(1, is_expression)
                and list_of(2, is_expression) and is_statement(kinds[3]))
    if kind == WHILE:
        return a == b == c == 0 and len(kinds) == 2 and expressions(0) and is_statement(kinds[1])
    if kind == IF:
        return (a == b == c == 0 and len(kinds) == 3 and expressions(0) and is_statement(kinds[1])
                and (kinds[2] == ABSENT or is_statement(kinds[2])))
    if kind == SWITCH:
        return (a == b == c == 0 and len(kinds) == 2 and expressions(0)
                and list_of(1, lambda k: is_statement(k) or k in (CASE, DEFAULT)))
    if kind == CONSTANT:
        if kinds or a > 5:
            return False
        if a == 2:
            return True
        return c == 0 and b < {0: strings, 1: strings, 3: 1 << 32, 4: 2, 5: 256}[a]
    if kind in (CALL, NEW):
        return a == b == c == 0 and len(kinds) == 2 and expressions(0) and list_of(1, is_expression)
    if kind == BINARY:
        return a <= 42 and b == c == 0 and len(kinds) == 2 and expressions(0, 1)
    if kind == UNARY:
        return a <= 5 and b <= (1 if a in (3, 4) else 0) and c == 0 and len(kinds) == 1 and expressions(0)
    if kind == INIT_OBJECT:
        return a == b == c == 0 and len(kinds) == 1 and list_of(0, lambda k: k == OBJECT_FIELD)
    if kind == FUNCTION:
        return (a <= strings and b <= 255 and c < 512 and len(kinds) == 2 and list_of(0, lambda k: k == PARAMETER)
                and list_of(1, is_statement))
    if kind == GOTO_FRAME:
        return a <= 1 and b == c == 0 and len(kinds) == 1 and expressions(0)
    if kind == START_DRAG:
        return (a <= 1 and b == c == 0 and len(kinds) == 2 and expressions(0) and list_of(1, is_expression)
                and len(children[1][1]) in (0, 4))
    if kind in (GET_PROPERTY, SET_PROPERTY):
        return b == c == 0 and len(kinds) == kind - GET_PROPERTY + 1 and all(is_expression(k) for k in kinds)
    if kind == OBJECT_FIELD:
        return a < strings and b == c == 0 and len(kinds) == 1 and expressions(0)
    if kind == PARAMETER:
        return a < strings and b <= 256 and c == 0 and not kinds
    return False


def check(file):
    """The answer for a file of any bytes."""
    if len(file) > 1048576:
        return 4
    if len(file) < 20:
        return 1
    at = len(file) - 20
    record_distance, end_distance, count, strings, edition = struct.unpack_from('<5I', file, at)
    if edition != 1 or record_distance != 20 * count or end_distance != record_distance + 4 * strings or end_distance > at:
        return 1
    length = at - end_distance
    ends = struct.unpack_from('<%dI' % strings, file, length)
    if any(y < x for x, y in zip(ends, ends[1:])) or (ends[-1] if ends else 0) != length:
        return 1
    # complete subtrees so far: kind, kinds of the children, records, depth
    row, kinds = [], []
    for kind, a, b, c, size in struct.iter_unpack('<5I', file[at - record_distance:at]):
        kinds.append(kind)
        children, inside = [], 1
        while inside < size and row:
            children.append(row.pop())
            inside += children[-1][2]
        if inside != size:
            return 1
        children.reverse()
        if not record_is_good(kind, a, b, c, [(x[0], x[1]) for x in children], strings):
            return 1
        row.append((kind, [x[0] for x in children], size, 1 + max((x[3] for x in children), default=0)))
    if len(row) != 1 or row[0][0] != LIST or not all(is_statement(k) for k in row[0][1]):
        return 1
    start = 0
    for end in ends:
        try:
            bytes(file[start:end]).decode('utf-8')
        except UnicodeDecodeError:
            return 2
        start = end
    if any(is_refused(k) for k in kinds):
        return 3
    return 4 if row[0][3] > 128 else 0


# ---------------------------------------------------------------- random files


class Maker:
    """Random trees that keep the rules, and damage to them."""

    def __init__(self, rng):
        self.rng, self.strings, self.left, self.refused = rng, 0, 0, 0.0

    def expressions(self, depth):
        return lst(*[self.expression(depth) for _ in range(self.rng.choice((0, 0, 1, 1, 2, 3)))])

    def statements(self, depth):
        return lst(*[self.statement(depth) for _ in range(self.rng.choice((0, 0, 1, 1, 2, 3)))])

    def leaf(self):
        r = self.rng
        if r.random() < 0.4:
            return Node(r.choice([k for _, k, n in PLAIN_EXPRESSIONS if n == 0]))
        place = r.randrange(6)
        if place < 2 and not self.strings:
            place = 3
        value = r.choice((0, 1, 5, MOST, r.getrandbits(32)))
        if place == 2:
            return Node(CONSTANT, a=2, b=value, c=r.getrandbits(32))
        return Node(CONSTANT, a=place, b=value % {0: self.strings, 1: self.strings, 3: 1 << 32, 4: 2, 5: 256}[place] if place != 3 else value)

    def any(self, depth):
        """A subtree of any sort."""
        r = self.rng
        which = r.randrange(8)
        if which == 0:
            return lst(*[self.any(depth + 1) for _ in range(r.randrange(3))]) if depth < 9 else lst()
        if which == 1:
            return absent()
        if which == 2:
            return Node(CASE, self.expression(depth + 1))
        if which == 3:
            return default()
        if which == 4 and self.strings:
            return Node(PARAMETER, a=r.randrange(self.strings), b=r.randrange(257))
        return self.expression(depth) if which % 2 else self.statement(depth)

    def refuse(self, kind, depth):
        r = self.rng
        return Node(kind, *[self.any(depth + 1) for _ in range(r.choice((0, 1, 2, 3)))],
                    a=r.choice((0, r.getrandbits(32))), b=r.choice((0, r.getrandbits(32))), c=r.choice((0, r.getrandbits(32))))

    def expression(self, depth):
        r = self.rng
        self.left -= 1
        if r.random() < self.refused:
            return self.refuse(GET_URL, depth)
        if self.left <= 0 or depth > 60 or r.random() < 0.2:
            return self.leaf()
        which = r.randrange(10)
        d = depth + 1
        if which < 3:
            _, kind, count = r.choice(PLAIN_EXPRESSIONS)
            return Node(kind, *[self.expression(d) for _ in range(count)])
        if which == 3:
            return Node(r.choice((CALL, NEW)), self.expression(d), self.expressions(d))
        if which == 4:
            return Node(BINARY, self.expression(d), self.expression(d), a=r.randrange(43))
        if which == 5:
            operator = r.randrange(6)
            return Node(UNARY, self.expression(d), a=operator, b=r.randrange(2) if operator in (3, 4) else 0)
        if which == 6:
            if self.strings and r.random() < 0.6:
                return Node(INIT_OBJECT, lst(*[Node(OBJECT_FIELD, self.expression(d + 2), a=r.randrange(self.strings)) for _ in range(r.randrange(4))]))
            return Node(INIT_ARRAY, self.expressions(d))
        if which == 7:
            parameters = [Node(PARAMETER, a=r.randrange(self.strings), b=r.choice((0, 1, 256, r.randrange(257)))) for _ in range(r.randrange(3))] if self.strings else []
            return Node(FUNCTION, lst(*parameters), self.statements(d + 1), a=r.randrange(self.strings + 1), b=r.choice((0, 2, 255)), c=r.randrange(512))
        if which == 8:
            if r.random() < 0.5:
                return Node(GOTO_FRAME, self.expression(d), a=r.randrange(2))
            return Node(START_DRAG, self.expression(d), lst(*[self.expression(d + 1) for _ in range(r.choice((0, 4)))]), a=r.randrange(2))
        if r.random() < 0.5:
            return Node(GET_PROPERTY, self.expression(d), a=r.getrandbits(32))
        return Node(SET_PROPERTY, self.expression(d), self.expression(d), a=r.getrandbits(32))

    def statement(self, depth):
        r = self.rng
        self.left -= 1
        if r.random() < self.refused:
            return self.refuse(r.randrange(10, 15), depth)
        if self.left <= 0 or depth > 60:
            return Node(r.choice((BREAK, CONTINUE)))
        which = r.randrange(12)
        d = depth + 1
        if which == 0 and self.strings:
            return Node(DECLARE, self.expression(d) if r.random() < 0.6 else absent(), a=r.randrange(self.strings))
        if which == 1:
            return Node(r.choice((RETURN, THROW)), self.expressions(d))
        if which == 2:
            return Node(BLOCK, self.statements(d + 1))
        if which in (3, 4):
            form = r.randrange(4)
            if form == 3 or (form < 2 and not self.strings):
                return Node(FOR_IN, self.statement(d) if r.random() < 0.5 else absent(), self.expressions(d), self.expressions(d), self.statement(d), a=1)
            return Node(FOR_IN, self.expression(d), self.statement(d), a=0, b=form, c=r.randrange(256) if form == 2 else r.randrange(self.strings))
        if which == 5:
            return Node(WHILE, self.expression(d), self.statement(d))
        if which == 6:
            return Node(IF, self.expression(d), self.statement(d), self.statement(d) if r.random() < 0.5 else absent())
        if which == 7:
            return Node(r.choice((BREAK, CONTINUE)))
        if which == 8:
            elements = []
            for _ in range(r.randrange(5)):
                elements.append(r.choice((lambda: Node(CASE, self.expression(d + 2)), default, lambda: self.statement(d + 1)))())
            return Node(SWITCH, self.expression(d), lst(*elements))
        return Node(EXPR, self.expression(d))

    def text(self, broken):
        r = self.rng
        letters = ''.join(chr(r.choice((0, 0x61, 0x7F, 0x80, 0x7FF, 0x800, 0xD7FF, 0xE000, 0xFFFF, 0x10000, 0x10FFFF, r.randrange(0xD800))))
                          for _ in range(r.randrange(4)))
        out = letters.encode('utf-8')
        if broken and r.random() < 0.5:
            if r.random() < 0.5 and out:
                i = r.randrange(len(out))
                out = out[:i] + bytes([r.randrange(256)]) + out[i + 1:]
            else:
                out = bytes(r.choice((0x80, 0xBF, 0xC0, 0xC2, 0xE0, 0xED, 0xA0, 0x9F, 0x90, 0x8F, 0xF0, 0xF4, 0xF5, 0x41)) for _ in range(r.randrange(1, 5)))
        return out

    def tree(self):
        r = self.rng
        self.left = r.choice((1, 3, 6, 12, 25, 50))
        self.refused = r.choice((0.0, 0.0, 0.0, 0.05, 0.3))
        self.strings = r.choice((0, 1, 2, 3, 6))
        root = lst(*[self.statement(2) for _ in range(r.choice((0, 1, 1, 2, 3, 5)))])
        if r.random() < 0.12:
            deep = self.expression(3)
            deep = voids(r.choice((60, 110, 118, 120, 122, 123, 124, 125, 126, 127, 140)), deep)
            root = lst(*(root.children + [Node(EXPR, deep)]))
        broken = r.random() < 0.15
        return [self.text(broken) for _ in range(self.strings)], records_of(root)

    def some_word(self, old):
        r = self.rng
        return r.choice((0, 1, 2, 3, 4, 5, 6, 42, 43, 255, 256, 257, 511, 512, MOST, old + 1, old - 1, old ^ (1 << r.randrange(32)), self.strings,
                         self.strings + 1, r.randrange(110), r.randrange(110))) & MOST

    def damaged(self, strings, records):
        """A copy with a few things changed; what the change leaves may keep the rules."""
        r = self.rng
        records = [list(x) for x in records]
        for _ in range(r.choice((1, 1, 1, 2, 3))):
            which = r.randrange(16)
            i = r.randrange(len(records))
            if which < 6:
                j = r.choice((0, 0, 1, 1, 2, 3, 4, 4))
                records[i][j] = self.some_word(records[i][j])
            elif which == 6:
                records[i][4] = max(0, records[i][4] + r.choice((-2, -1, 1, 2)))
            elif which == 7 and len(records) > 1:
                del records[i]
                if r.random() < 0.7:
                    self.resize(records, i, -1)
            elif which == 8:
                records.insert(i, list(r.choice(records)))
                if r.random() < 0.7:
                    records[i][4] = 1
                    self.resize(records, i + 1, 1)
            elif which == 9:
                j = r.randrange(len(records))
                records[i], records[j] = records[j], records[i]
            elif which == 10:
                j = r.randrange(len(records))
                records[i][:4] = records[j][:4]
            elif which == 11:
                records[i][0] = r.choice((9, 10, 11, 12, 13, 14, 15, 16, 31, 32, 39, 52, 53, 54, 77, 78, 95, 96, 97, 98, 99, 100, 101, 102))
            else:
                records[i][0] = r.choice((39, 53, 8, 10, 14)) if records[i][4] == 1 else records[i][0]
        file = write(strings, [tuple(x) for x in records])
        if r.random() < 0.35:
            file = self.damaged_bytes(bytearray(file), strings, len(records))
        return bytes(file)

    def resize(self, records, at, by):
        """Adds `by` to the sizes of the records around `at`, and to the count of a list where it is the parent."""
        first = True
        for i in range(at, len(records)):
            if i - records[i][4] + 1 <= at:
                records[i][4] = max(0, records[i][4] + by)
                if first and records[i][0] == LIST and self.rng.random() < 0.8:
                    records[i][1] = (records[i][1] + by) & MOST
                first = False

    def damaged_bytes(self, file, strings, count):
        r = self.rng
        which = r.randrange(8)
        at = len(file) - 20
        if which == 0:
            i = at + 4 * r.randrange(5)
            old = struct.unpack_from('<I', file, i)[0]
            struct.pack_into('<I', file, i, (old + r.choice((-20, -4, -1, 1, 4, 20, 1 << 30, 1 << 31))) & MOST)
        elif which == 1 and strings:
            i = at - 20 * count - 4 * r.randrange(1, len(strings) + 1)
            old = struct.unpack_from('<I', file, i)[0]
            struct.pack_into('<I', file, i, (old + r.choice((-2, -1, 1, 2, 1 << 31))) & MOST)
        elif which == 2:
            file[r.randrange(len(file))] ^= 1 << r.randrange(8)
        elif which == 3:
            del file[r.randrange(len(file)):]
        elif which == 4:
            del file[:r.choice((1, 4, 20))]
        elif which == 5:
            i = r.randrange(len(file) + 1)
            file[i:i] = bytes(r.choice((1, 4, 20)))
        elif which == 6:
            # one record or one string more or less, by its count and its distances
            j = r.choice((0, 1))
            by = r.choice((-1, 1))
            for k, step in ((0, 20 * (1 - j)), (1, 20 * (1 - j) + 4 * j), (2 + j, 1)):
                old = struct.unpack_from('<I', file, at + 4 * k)[0]
                struct.pack_into('<I', file, at + 4 * k, (old + by * step) & MOST)
        else:
            file[r.randrange(at)] = r.randrange(256)
        return file


def random_files(seed, count):
    maker = Maker(random.Random(seed))
    out = []
    while len(out) < count:
        strings, records = maker.tree()
        files = [write(strings, records)] + [maker.damaged(strings, records) for _ in range(4)]
        for file in files:
            if len(out) < count:
                out.append(('r%d_%d' % (seed, len(out)), check(file), [(file, 1)]))
    return out


# ---------------------------------------------------------------- the text


def whole(parts):
    return b''.join(part * times for part, times in parts)


def hex_of(part):
    """Two digits a byte; in a long part, runs of zeros in short."""
    if len(part) < 1500:
        return part.hex()
    return ''.join('@00*%d:' % (len(run) - 1) if len(run) > 7 and not any(run) else run.hex() for run in re.findall(rb'\0+|[^\0]+', part))


def text_of(parts):
    return ''.join(hex_of(part) if times == 1 else '@%s*%d:' % (part.hex(), len(part) * (times - 1)) for part, times in parts)


def put(files, text_name, answers_name):
    with open(text_name, 'w') as text, open(answers_name, 'w') as answers:
        for name, answer, parts in files:
            text.write('%s %s\n' % (name, text_of(parts)))
            answers.write('%s %d\n' % (name, answer))


def show(file):
    """The areas of a file with their offsets, a row for each string, end offset, record and the trailer."""
    at = len(file) - 20
    record_distance, end_distance, count, strings, _ = struct.unpack_from('<5I', file, at)
    rows, start = [], 0
    for i in range(strings):
        end = struct.unpack_from('<I', file, at - end_distance + 4 * i)[0]
        rows.append((start, end, 'string %d' % i))
        start = end
    rows += [(at - end_distance + 4 * i, at - end_distance + 4 * i + 4, 'end %d' % i) for i in range(strings)]
    rows += [(at - record_distance + 20 * i, at - record_distance + 20 * i + 20, 'record %d' % i) for i in range(count)]
    for first, last, name in rows + [(at, len(file), 'trailer')]:
        print('%4d  %-9s  %s' % (first, name, file[first:last].hex(' ', -4) if last - first == 20 else file[first:last].hex()))


def main(arguments):
    if len(arguments) == 3 and arguments[0] == 'corpus':
        files = all_files()
        for name, answer, parts in files:
            found = check(whole(parts))
            assert found == answer, '%s: %d is written here, the checker says %d' % (name, answer, found)
        put(files, arguments[1], arguments[2])
        counts = [sum(1 for x in files if x[1] == answer) for answer in range(5)]
        print('%d files: %d accepted; refusals 1: %d, 2: %d, 3: %d, 4: %d' % (len(files), *counts))
    elif len(arguments) == 5 and arguments[0] == 'random':
        files = random_files(int(arguments[1]), int(arguments[2]))
        put(files, arguments[3], arguments[4])
        counts = [sum(1 for x in files if x[1] == answer) for answer in range(5)]
        print('%d files: %d accepted; refusals 1: %d, 2: %d, 3: %d, 4: %d' % (len(files), *counts))
    elif arguments == ['show']:
        show(a_equals_80())
    else:
        sys.exit(__doc__)


if __name__ == '__main__':
    main(sys.argv[1:])
