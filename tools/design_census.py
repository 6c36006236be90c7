#!/usr/bin/env python3
"""Counts the places of docs/DESIGN-PASS.md in crates/*/src and crates/*/proofs.

  python3 tools/design_census.py            each point's list and count
  python3 tools/design_census.py 3          one point alone
  python3 tools/design_census.py --counts   the counts alone
  python3 tools/design_census.py --markdown the tables of docs/DESIGN-PASS.md
  python3 tools/design_census.py --crates   the same places, crate by crate
  python3 tools/design_census.py --left     the places without a reason in tools/design_kept, crate by crate
  python3 tools/design_census.py --kept     how many have one, and the reasons that no place or no source has
  python3 tools/design_census.py --reasons  the places that have one, each with its reason, as tables
  python3 tools/design_census.py --other    what the greps of docs/DESIGN-PASS.md count, at the first commit and now

It reads the text alone. A place is a line `crate/src/file.rt: item | what it is`.
"""
import collections
import difflib
import glob
import os
import re
import signal
import subprocess
import sys

ROOT = os.path.join(os.path.dirname(os.path.abspath(__file__)), '..')
os.chdir(ROOT)

NUMBERS = ('u8', 'u16', 'u32', 'u64', 'usize', 'i32')
KEYWORDS = set('''if else while for in loop match return let mut fn pub as true false struct enum const use mod break continue
  ref self Self impl where'''.split())


class Fn:
    """A function: where it stands, its parameters as (name, type), its answer's type, clauses and body."""


class Type:
    """A struct or an enum: where it stands, and its fields or variants as text."""


def strip_comments(text):
    return '\n'.join(re.sub(r'(^|\s)//.*$', '', line) for line in text.split('\n'))


def matching(text, i, opening, closing):
    depth = 0
    while i < len(text):
        if text[i] == opening:
            depth += 1
        if text[i] == closing:
            depth -= 1
            if depth == 0:
                return i
        i += 1
    return len(text)


def split_top(text, separator):
    parts, depth, current, i = [], 0, '', 0
    while i < len(text):
        c = text[i]
        if c in '([{<' and not text.startswith('<=', i) and not text.startswith('< ', i):
            depth += 1
        if c in ')]}>' and not (c == '>' and text[i - 1] in '-=' or text.startswith('> ', i) and text[i - 1] == ' '):
            depth -= 1
        if depth == 0 and text.startswith(separator, i):
            parts.append(current)
            current = ''
            i += len(separator)
            continue
        current += c
        i += 1
    parts.append(current)
    return [p.strip() for p in parts if p.strip()]


def one_line(text):
    return re.sub(r'\s+', ' ', text).strip()


def fns_of(path, text):
    found = []
    pattern = re.compile(r'^( *)(pub(?:\([a-z]+\))? )?(?:extern "C" )?fn (\w+)(<[^{;]*?>)?\(', re.M)
    for m in pattern.finditer(text):
        f = Fn()
        f.path, f.name, f.indent, f.public = path, m.group(3), m.group(1), bool(m.group(2))
        f.line = text.count('\n', 0, m.start()) + 1
        close = matching(text, m.end() - 1, '(', ')')
        f.params = []
        for p in split_top(one_line(text[m.end():close]), ','):
            p = re.sub(r'^mut ', '', p)
            if ':' in p:
                name, kind = p.split(':', 1)
                f.params.append((name.strip(), kind.strip()))
            else:
                f.params.append(('self', p))
        end = re.compile(r'^' + f.indent + r'\}\s*$', re.M).search(text, close)
        whole = text[close + 1:end.start() if end else len(text)]
        body = re.search(r'\{ *\n', whole) if not re.search(r'^\s+(requires|ensures)', whole, re.M) else re.search(
            r'^' + f.indent + r'\{ *$', whole, re.M)
        head = whole[:body.start()] if body else whole
        f.body = whole[body.end():] if body else ''
        answer = re.match(r'\s*->\s*([^\n{]+)', head)
        f.answer = answer.group(1).strip() if answer else ''
        f.clauses = []
        for c in re.split(r'^\s+(?=requires|ensures)', head, flags=re.M)[1:]:
            word = c.split()[0]
            inside = c[c.index('{') + 1:c.rindex('}')] if '{' in c else c
            f.clauses.append((word, one_line(inside)))
        found.append(f)
    return found


def types_of(path, text):
    found = []
    for m in re.finditer(r'^(?:pub(?:\([a-z]+\))? )?(struct|enum) (\w+)(?:<[^>]*>)? \{\n(.*?)^\}', text, re.M | re.S):
        t = Type()
        t.path, t.sort, t.name = path, m.group(1), m.group(2)
        t.parts = split_top(one_line(m.group(3)), ',')
        found.append(t)
    return found


PATHS = sorted(glob.glob('crates/*/src/*.rt'))
TEXTS = {p: strip_comments(open(p).read()) for p in PATHS}
FNS = [f for p in PATHS for f in fns_of(p, TEXTS[p])]
TYPES = [t for p in PATHS for t in types_of(p, TEXTS[p])]


def short(path):
    return path[len('crates/'):]


def place(x):
    return f'{short(x.path)}: {x.name}'


# ---------------------------------------------------------------- point 1

NO_VALUE = re.compile(r'^(None|Nothing|Nowhere|No[A-Z]\w*|Broken|Refused|Accepted|Absent|Other)$')


# numbers by cases of a formula, which stand for nothing else
PLAIN = ('rounds', 'frame', 'beside_strings', 'wrapping_less', 'only_if', 'span', 'less', 'less_one', 'minus', 'back', 'limit_of',
         'offset_to', 'frame_of', 'start_of', 'start_at', 'list_start', 'number_at')


def variant_name(v):
    return re.match(r'\w+', v).group(0)


def point1():
    found = []
    for t in TYPES:
        if t.sort == 'enum':
            bare = [v for v in t.parts if re.fullmatch(r'\w+', v)]
            named = [variant_name(v) for v in t.parts if NO_VALUE.match(variant_name(v))]
            if len(t.parts) == 2 and len(bare) == 1:
                found.append((place(t), f'own enum of Option\'s shape: {" or ".join(variant_name(v) for v in t.parts)}'))
            elif any(n in ('Refused', 'Accepted') for n in named):
                found.append((place(t), f'own enum of Result\'s shape: {", ".join(variant_name(v) for v in t.parts)}'))
            elif named:
                found.append((place(t), f'own enum with a variant for nothing: {", ".join(named)} among {len(t.parts)}'))
        else:
            flags = [p.split(':')[0].replace('pub ', '') for p in t.parts if re.search(r': bool$', p)]
            rest = [p.split(':')[0].replace('pub ', '') for p in t.parts if not re.search(r': bool$', p)]
            if flags:
                found.append((place(t), f'flag {", ".join(flags)} beside {", ".join(rest) or "nothing"}'))
            for p in t.parts:
                name = p.split(':')[0].replace('pub ', '')
                if re.search(r': (u32|u8|usize)$', p) and name in ('refused', 'refusal', 'phase', 'code', 'kind', 'from_default'):
                    found.append((f'{place(t)}.{name}', {'refused': 'refusal as a number, 0 for none', 'refusal': 'refusal as a number, 0 for none', 'from_default': 'count, 0 for none'}.get(name, f'{name} as a number')))
    for t in TYPES:
        for p in t.parts:
            for name in re.findall(r'\b(name|register|marks): u(?:16|32)', p):
                if t.sort == 'enum' and (variant_name(p) == 'Function' or name == 'register'):
                    words = 'nine flags as the bits of a number' if name == 'marks' else 'number plus 1, 0 for none'
                    found.append((f'{place(t)}::{variant_name(p)}.{name}', words))
    for p in PATHS:
        for name in re.findall(r'^const (\w+): \[u32; \d+\] = \[\s*0x', TEXTS[p], re.M):
            found.append((f'{short(p)}: {name}', 'forms packed into numbers'))
    for f in FNS:
        numbers = [n for n, k in f.params if k in NUMBERS and n in ('number', 'refusal') and 'refus' in (f.name + f.body)]
        if numbers or (f.name in ('stop', 'mark') and any(n == 'number' for n, k in f.params)):
            found.append((place(f), 'takes a refusal as a number'))
        literal = sorted(set(re.findall(r'(?:refuse|stop|Refused|put_refusal)\((?:b, |out, |s, )?(\d+)\)', f.body)))
        if literal:
            found.append((place(f), f'says refusal {", ".join(literal)} as a number'))
        if f.answer in NUMBERS and re.search(r'refus|return 10;|Refused', f.body) and f.name not in ('answer_to',):
            found.append((place(f), f'answers with a refusal as {f.answer}'))
        if re.search(r'refused != 0|refusal != 0|number != 0|refused == 0', f.body):
            found.append((place(f), 'tests a refusal\'s number for 0 (a step after a refusal)'))
        coded = 'kind|code|class|phase|digit|t|form|shape' + ('|first' if crate_of(f) == 'script' else '')
        kinds = sorted(set(re.findall(r'\b(?:' + coded + r')\b (?:==|!=|<|<=|>=) (0x[0-9a-fA-F]+|\d+)\b', f.body)
                           + re.findall(r'\b(0x[0-9a-fA-F]+|\d+) <= (?:row\.)?(?:kind|code)', f.body)
                           + re.findall(r'kind_at\([^()]*\) (?:==|!=|<) (\d+)', f.body)))
        arms = re.findall(r'^\s*(?:\| )?((?:0x[0-9a-fA-F]+|\d+)(?:\.\.=\S+)?(?: \| (?:0x[0-9a-fA-F]+|\d+))*) =>', f.body, re.M)
        if arms or kinds:
            words = f'{len(arms)} arms of numbers' if arms else f'kind or code compared with {", ".join(kinds)}'
            found.append((place(f), words))
        takes = [n for n, k in f.params if k in NUMBERS and n in ('kind', 'code', 'class', 'form', 'sorts', 'digit', 't', 'up', 'low', 'high') and (n not in ('low', 'high') or crate_of(f) == 'rows')]
        if takes:
            found.append((place(f), f'takes {", ".join(takes)} as a number'))
        if f.answer in NUMBERS and f.name not in PLAIN:
            says = re.findall(r'return (\d+|0x[0-9a-f_]+|[A-Z_]{3,});', f.body) + re.findall(r'=> (\d+|0x[0-9a-f_]+|[A-Z_]{3,}),', f.body)
            says += [x for pair in re.findall(r'\{ (\d+) \} else \{ (\d+) \}', f.body) for x in pair]
            tail = f.body.strip().split('\n')[-1].strip()
            if re.fullmatch(r'\d+|0x[0-9a-f_]+', tail):
                says.append(tail)
            if says:
                which = sorted(set(says))
                words = 'answers 0 or 1 for no or yes' if set(which) == {'0', '1'} else f'answers {", ".join(which)} where there is nothing, or for a case'
                found.append((place(f), words))
        if re.search(r'(reference|name|\bs|\br)(:| ==) (0xffff_ffff|NO_STRING)|b, 0xffff_ffff', f.body):
            found.append((place(f), 'reference 0xffff_ffff for no string'))
        if re.search(r'list\[at\] != 0|next != 0|end_of\(list, k\) != 0|from_default == 0|name == 0|\bpart.n == 0|found.n == 0|block.n != 0', f.body):
            found.append((place(f), 'a word or a count is 0 for none, and else a number plus 1 or a position'))
        if f.name in ('find', 'string_end', 'row_of') and 'while' in f.body and f.answer == 'usize':
            found.append((place(f), 'answers with the length where there is none'))
    for f in FNS:
        m = re.search(r'(\w+(?:\.\w+)?) (?:==|!=) 0 \{\s*return Part|\.n == 0 \{\s*return', f.body)
        if m and f.answer == 'Part':
            found.append((place(f), 'a part of no records stands for none'))
    return merged(found)


def merged(found):
    """One line for each place, its reasons one after another."""
    by = collections.OrderedDict()
    for where, what in found:
        by.setdefault(where, [])
        if what not in by[where]:
            by[where].append(what)
    return [(w, '; '.join(x)) for w, x in by.items()]


# ---------------------------------------------------------------- point 2

TOKEN = re.compile(r'b?"[^"]*"|b\'[^\']*\'|0x[0-9a-fA-F_]+|\d[\d_]*(?:u\d+|usize)?|\w+|::|=>|->|==|!=|<=|>=|&&|\|\||\+=|-=|\S')


def tokens(text):
    return TOKEN.findall(text)


def shape(f):
    """The body with names numbered by their first use, numbers and types left open."""
    numbers, out = {}, []
    for t in tokens(f.body):
        if re.match(r'^(0x|\d|b\'|b")', t):
            out.append('N')
        elif re.match(r'^\w+$', t) and t not in KEYWORDS:
            out.append(f'v{numbers.setdefault(t, len(numbers))}')
        else:
            out.append(t)
    return ' '.join(out)


# families that differ by a type, a size or a constant, but not by names and numbers alone; listed while two of them are there
FAMILIES = [
    ('one word or byte read, least significant first', ['constants: word', 'script_records: word', 'utf8: four', 'record_reader: word', 'record_reader: long', 'listing_text: short_at', 'constants: short_word']),
    ('a byte as a wider number', ['constants: wide', 'script_records: wide', 'utf8: wide', 'listing_text: wide', 'compile_files: wide', 'action_writer: wide', 'record_reader: byte']),
    ('difference, 0 where there is none', ['builder: minus', 'script_records: minus', 'script_records: back', 'byte_writer: less', 'script: less_one', 'resolver: less_one', 'utf8: less']),
    ('the string of a reference', ['constants: text', 'byte_writer: text', 'resolver: text_at', 'listing_text: string_of']),
    ('a bool, or a number, as 0 or 1', ['builder: bit', 'byte_writer: bit_of', 'leaves: bit_of', 'rows: bit', 'rows: kept', 'byte_writer: is_one']),
    ('an answer as its refusal\'s number', ['as2_codegen: number_of', 'check_files: number_of', 'compile_files: number_of']),
    ('an answer as a word', ['rascal_c: compiled_word', 'rascal_c: read_word']),
    ('the name of a parameter or a field', ['leaves: name_of', 'resolver: param_name', 'byte_writer: param_of']),
    ('a function\'s name as a reference', ['resolver: function_name', 'byte_writer: name_reference', 'decode: name_of', 'listing_text: function_name']),
    ('a slice cleared', ['zeros: clear_words', 'zeros: clear_bytes', 'as2_codegen: clear_index', 'builder: clear_labels']),
    ('scratch of one size', ['as2_codegen: with_tiny', 'as2_codegen: with_small', 'as2_codegen: with_large']),
    ('scratch of one size made', ['as2_codegen: tiny', 'as2_codegen: small', 'as2_codegen: large']),
    ('as many strings or parameters as a count says', ['record_reader: strings', 'record_reader: params']),
    ('a function\'s record, of one register or more', ['record_reader: function', 'record_reader: function2']),
    ('a record of fixed data', ['record_reader: call', 'record_reader: frame', 'record_reader: register', 'record_reader: play', 'record_reader: branch']),
    ('a record that ends in strings', ['record_reader: label', 'record_reader: pool_record']),
    ('a value behind its type, of one byte or of some', ['record_reader: string_value', 'record_reader: register_value', 'record_reader: boolean_value', 'record_reader: narrow_constant', 'record_reader: float_value', 'record_reader: integer_value', 'record_reader: wide_constant']),
    ('an action with one word, handed to emit', ['builder: store_register', 'builder: goto_frame', 'builder: goto_frame2', 'builder: goto_label', 'builder: jump', 'builder: branch']),
    ('an action whose delta its row says, or its caller', ['builder: action', 'builder: action_down']),
    ('one label, or so many', ['builder: create_label', 'builder: create_labels']),
    ('local tables are made and lent', ['action_reader: walk_all', 'action_writer: write_with_tables', 'resolver: measure']),
    ('the pool\'s place is kept, and a fresh state made', ['action_reader: begin', 'as2_codegen: begin', 'action_reader: fresh']),
    ('a state after a refusal', ['action_reader: refuse', 'builder: refuse']),
    ('a function\'s list ends', ['builder: end_function', 'action_reader: close']),
    ('the top list ends', ['builder: into_actions', 'action_reader: finish']),
    ('a call that hands on', ['rascal: read', 'action_reader: read']),
    ('a variant as 0 or 1', ['leaves: is_labelled', 'leaves: is_case']),
    ('whether the old value is left, or none', ['leaves: keeps_old', 'leaves: leaves_none']),
    ('a tree: its record, its children and those before', ['script_records: Tree', 'tree: Node']),
    ('a parameter: its name and its register', ['byte_writer: Param', 'listing_text: Item']),
    ('a run of records or strings', ['script_records: Part', 'listing_text: Items']),
    ('a builder and what it leaves', ['access: Accessed', 'leaves: Pushed']),
    ('a push of the first value, or of a later one', ['action_writer: put_first', 'action_writer: put_later']),
    ('a byte, 0 behind the end', ['constants: byte_or_zero', 'listing_text: byte_at', 'listing_text: letter']),
    ('a string or a name, each with its own loop', ['special_properties: get_special_property', 'listing_text: row_of']),
    ('an expression\'s test, over a record or over its kind', ['leaves: is_expr', 'script: is_expr']),
    ('whether so many bytes are ASCII', ['utf8: many_ascii', 'utf8: few_ascii']),
    ('whether a char of so many bytes stands', ['utf8: is_two', 'utf8: is_three', 'utf8: is_four']),
    ('whether a byte can come second', ['utf8: is_second', 'utf8: is_second_of_four']),
    ('whether a char is open', ['utf8: is_owed', 'utf8: is_open']),
    ('the lowest and the highest second byte', ['utf8: lowest', 'utf8: highest']),
    ('where an open char starts', ['utf8: open_start', 'utf8: last_start']),
    ('a label is marked, with another refusal', ['builder: mark_label', 'builder: mark_default']),
    ('an entry moves down', ['builder: move_entry', 'action_reader: move_as']),
    ('a list moves down', ['builder: move_list', 'action_reader: settle_list']),
    ('how many actions an entry adds', ['builder: actions_added', 'resolver: actions_added', 'listing_text: begun']),
    ('a label\'s place is set', ['builder: set_place', 'resolver: set_place']),
    ('the label that an entry marks', ['builder: set_place_at', 'resolver: mark_entry']),
    ('the positions of the labels of a list', ['builder: label_positions', 'resolver: mark_list']),
    ('over all finished lists', ['builder: function_positions', 'resolver: clear_lists', 'resolver: measure_lists']),
    ('over the entries of a list, the last first', ['resolver: walk_list', 'resolver: clear_list', 'resolver: resolve_list', 'resolver: mark_list']),
    ('a word of a table, 0 behind its end', ['resolver: place_of', 'resolver: start_of', 'listing_text: word_at', 'listing_text: pool_word', 'listing_text: end_of']),
    ('where a finished list begins and ends', ['action_writer: list_start', 'listing_text: start_of', 'action_writer: list_end', 'listing_text: end_of']),
    ('which list is the top one', ['resolver: count_lists', 'listing_text: top_list']),
    ('whether an entry is a later value', ['listing_text: is_later_value', 'builder: joins']),
    ('a form looked up', ['script: entry', 'script: constant_form', 'script: unary_form', 'script: for_in_form']),
    ('a kind looked up', ['decode: statement_in_table', 'decode: expr_in_table']),
    ('a kind by its place', ['decode: statement_kind', 'decode: expr_kind']),
    ('where the first byte of a kind stands', ['record_reader: string_end', 'text_lines: find', 'utf8: bytes', 'resolver: no_zero']),
    ('how an action moves the stack', ['pcode: falling', 'pcode: rising', 'pcode: level']),
    ('generated beside, or in place', ['as2_codegen: generate_beside', 'as2_codegen: generate_in_place']),
    ('a call, or a construction', ['access: call', 'access: call_new']),
    ('a value is set, or set and left', ['access: set_value', 'access: get_and_set_value']),
    ('a name is null or undefined', ['special_properties: is_null', 'special_properties: is_undefined']),
    ('the parts of a tree', ['tree: node_at', 'tree: rest_of', 'tree: children_of', 'tree: kind_at', 'script_records: last_tree']),
    ('a tree taken away, by cases of its size', ['script_records: last_tree', 'tree: rest_of', 'script_records: sized', 'tree: without']),
    ('trees counted', ['tree: counts_of', 'tree: width_of', 'script: count_siblings']),
    ('a tree of a row by its place', ['tree: kid_at', 'tree: list_at']),
    ('the ends of the trees that are kept', ['rows: ends_by_kind', 'rows: ends_of_statements']),
    ('whether a kind is in a range', ['rows: is_among', 'utf8: within', 'script: is_expr', 'script: is_element']),
    ('every one keeps a rule', ['script: ends_hold', 'script: records_hold', 'script: strings_hold', 'script: kinds_supported']),
    ('a word in two\'s complement', ['decode: to_signed', 'builder: to_word', 'access: small', 'leaves: word_of']),
    ('a text is answered, unless it is too long', ['check_files: check_text', 'compile_files: answer_text', 'read_files: answer_text', 'listing: list_file']),
    ('each line of a text', ['check_files: check_lines', 'compile_files: put_lines', 'read_files: put_lines']),
    ('one line of a text', ['check_files: check_line', 'compile_files: put_line', 'read_files: put_line', 'listing_text: put_line_name']),
    ('what a file compiles to is printed', ['listing: put_listing', 'compile_files: put_answer', 'read_files: put_answer', 'compile: compile_and_write']),
    ('the first n of a slice, if it has so many', ['compile_files: with_bytes', 'compile_files: with_words', 'compile_files: put_output', 'compile: write_bytes']),
    ('what is left where a line is not well written', ['text_lines: bad', 'listing_text: bad']),
    ('read or compiled: two readings of one reference', ['listing_text: string_of', 'listing_text: function_at', 'listing_text: read_function', 'listing_text: function_name', 'listing_text: parameters_of', 'listing_text: compiled_parameters', 'listing_text: read_parameters', 'listing_text: parameter_at', 'listing_text: compiled_parameter', 'listing_text: read_parameter', 'listing_text: pool_of', 'listing_text: pooled_at']),
    ('scalars within their limits', ['script: limit_of', 'script: scalars_fit']),
    ('a header\'s sizes, measured twice', ['byte_writer: param_size', 'byte_writer: params_size', 'resolver: beside_strings', 'resolver: params_text', 'resolver: function_data']),
    ('the data of an action by its code', ['byte_writer: put_data', 'resolver: kind_data', 'record_reader: with_data', 'listing_text: put_coded']),
    ('a value by its type', ['byte_writer: put_operand', 'byte_writer: put_value', 'record_reader: value', 'listing_text: put_value', 'listing_text: put_value_number']),
    ('a constant read for its value', ['access: for_constant', 'leaves: read_constant']),
    ('numbers that are not to be mixed: a label, a position, a byte offset', ['pcode: Label', 'pcode: Position', 'pcode: ByteOffset']),
    ('answers of three layers with one content', ['action_writer: Written', 'rascal: Compiled', 'action_reader: Answer', 'as2_codegen: Lowered', 'resolver: Answer']),
    ('a value of two or three words', ['builder: ValueWords', 'listing_text: Entry', 'record_reader: ReadValue']),
    ('something found, and whether it was', ['action_reader: Place', 'action_reader: Target', 'action_reader: Settled', 'listing_text: Line', 'record_reader: Step']),
]


def crate_of(x):
    return short(x.path).split('/')[0]


def point2():
    there = collections.defaultdict(list)
    for x in FNS + TYPES:
        there[f'{crate_of(x)}: {x.name}'].append(x)
    for p in PATHS:
        for name in re.findall(r'^pub struct (\w+)\(', TEXTS[p], re.M):
            t = Type()
            t.path, t.name = p, name
            there[f'{crate_of(t)}: {name}'].append(t)
    groups = []
    for words, members in FAMILIES:
        have = [x for m in members for x in there.get(m, [])]
        if len(have) > 1:
            groups.append((words, have))
    taken = [set(id(x) for x in g) for _, g in groups]
    shapes = collections.defaultdict(list)
    for f in FNS:
        if f.name != 'main' and len(tokens(f.body)) >= 6:
            shapes[shape(f)].append(f)
    for s, fs in shapes.items():
        if len(fs) > 1 and not any(set(id(f) for f in fs) <= t for t in taken):
            groups.append(('bodies that are the same but for names and numbers', fs))
            taken.append(set(id(f) for f in fs))
    big = [f for f in FNS if len(tokens(f.body)) >= 25 and f.name != 'main']
    toks = {id(f): shape(f).split() for f in big}
    for i, f in enumerate(big):
        for g in big[i + 1:]:
            a, b = toks[id(f)], toks[id(g)]
            if abs(len(a) - len(b)) * 5 > max(len(a), len(b)):
                continue
            if any({id(f), id(g)} <= t for t in taken):
                continue
            m = difflib.SequenceMatcher(None, a, b, autojunk=False)
            if m.quick_ratio() >= 0.9 and m.ratio() >= 0.9:
                groups.append(('bodies that are nearly the same', [f, g]))
                taken.append({id(f), id(g)})
    found = []
    for words, have in groups:
        found.append((', '.join(dict.fromkeys(place(x) for x in have)), words))
    return found


# ---------------------------------------------------------------- point 3

def point3():
    found = []
    for f in FNS:
        for m in re.finditer(r'^( *)(?:\'\w+: )?(while|loop)\b([^\n]*)\{\n(.*?)^\1\}', f.body, re.M | re.S):
            condition = m.group(3).strip()
            inside = m.group(4)
            moved = sorted(set(re.findall(r'^ +(\w+) (?:\+=|-=) (?:1|size|\d+|by)\b', inside, re.M)))
            tested = [v for v in moved if re.search(r'\b' + v + r'\b', condition)]
            if tested:
                words = f'`while {condition}`: counts {", ".join(tested)} by hand'
            elif re.search(r'\.n != 0|kind_at\(|left\.end', condition):
                words = f'`while {condition}`: walks the trees of a row by hand'
            elif re.search(r'refused|phase|is_window|p\.at|block\.n', condition):
                words = f'`while {condition}`: a state goes on until it is done'
            else:
                words = f'`while {condition}`: moves a position by hand'
            if moved and not tested:
                words += f', counts {", ".join(moved)} beside'
            found.append((place(f), words))
    # an inner loop is found by the same pattern, since each pattern takes one indent
    inner = []
    for f in FNS:
        for m in re.finditer(r'^ {8,}(?:\'\w+: )?while ([^\n]*)\{\n', f.body, re.M):
            inner.append((place(f), f'`while {m.group(1).strip()}`: counts {m.group(1).split()[0]} by hand, inside the loop above'))
    return found + inner


# ---------------------------------------------------------------- point 4

def point4():
    found = []
    for f in FNS:
        body = one_line(f.body)
        two = [k for n, k in f.params]
        if re.fullmatch(r'(\w+|\(\w+ % \d+\)|\w+\[\w+\]) as \w+', body):
            found.append((place(f), f'conversion by hand: `{body}` (From, or the place\'s own `as`)'))
        if re.search(r'0x8000_0000|-1 - \(?|0xffff_ffff - \(', body) and f.answer in ('i32', 'u32') and len(body) < 120:
            found.append((place(f), 'two\'s complement by hand (`as`, cast_signed, wrapping_sub)'))
        if re.search(r'\{ (return )?0;? \}( else \{)? \(*\w+ - \w+|\{ \w+ - \w+ \} else \{ 0 \}', body) and f.answer in NUMBERS and len(body) < 130:
            found.append((place(f), 'difference that stops at 0, by hand (saturating_sub)'))
        for m in re.finditer(r'if (\w+(?:\.\w+)?) == 0 \{ 0 \} else \{ \(?\1 - 1\)?', body):
            found.append((place(f), f'difference that stops at 0, by hand: {m.group(1)} (saturating_sub)'))
        if f.answer in NUMBERS and re.search(r'if \w+ < \w+\.len\(\) \{ return \w+[\[(]|if (\d+|[A-Z_ -]+) <= \w+ \{ return 0; \}', body) and len(body) < 140 and 'while' not in body:
            found.append((place(f), 'element, or 0 behind the end, by hand (get, unwrap_or)'))
        for name, words in (('skip', 'sum that stops at the length, by hand (saturating_add, min)'), ('next', 'sum that stops, by hand (saturating_add)'),
                            ('wrapping_less', 'wrapping difference by hand (wrapping_sub)'), ('negate_integer', 'negative by hand (checked_neg)')):
            if f.name == name:
                found.append((place(f), words))
        if re.search(r'if (\w+) < (\w+) \{ return \2; \} \1$', body) or re.search(r'if n <= s \{ return n; \}', body):
            found.append((place(f), 'larger or smaller of two, by hand (max, min, clamp)'))
        if re.search(r'\{ 1 \} else \{ 0 \}|\{ 0 \} else \{ 1 \}', body) and f.answer in NUMBERS and len(body) < 60:
            found.append((place(f), 'a bool as a number, by hand (u32::from)'))
        if re.search(r'(wide|byte|byte_at|word|byte_or_zero)\(', body) and re.search(r'256|65536', body) and f.answer in NUMBERS and 'put' not in f.name and f.name not in ('sum', 'low_half') and len(body) < 260:
            found.append((place(f), 'bytes as a number, by hand (from_le_bytes)'))
        if re.search(r'rest = rest / 256', body):
            found.append((place(f), 'a number as bytes, by hand (to_le_bytes)'))
        if f.answer == 'bool' and re.search(r'=> true', body) and re.search(r'=> false', body):
            found.append((place(f), 'match that tests for a variant or a value (matches!, ==)'))
        if f.answer == 'bool' and re.search(r'if \w+ < \w+ \{ return false; \} \w+ (<|<=) \w+$', body):
            found.append((place(f), 'range test by hand (contains)'))
        if f.answer == 'bool' and re.search(r'== 0x?\w+\) \| \(', body):
            found.append((place(f), 'one of some numbers, by hand (matches!)'))
        if f.answer == 'bool' and body.count('return true') + body.count('return false') >= 2 and 'while' not in body and len(body) < 160 and re.search(r'if (kind|code)', body):
            found.append((place(f), 'one of some numbers, by hand (matches!)'))
        if f.name in ('both', 'is_labelled', 'is_case', 'is_null', 'is_undefined', 'same_bytes', 'same_block', 'to_ascii_lowercase', 'keeps_old', 'leaves_none', 'same_text', 'is_under'):
            words = {
                'both': '`a & b` by hand', 'is_labelled': 'a variant as 0 or 1, by hand (matches!)', 'is_case': 'a variant as 0 or 1, by hand (matches!)',
                'is_null': 'equality of bytes by hand (==)', 'is_undefined': 'equality of bytes by hand (==)', 'same_bytes': 'equality of slices by hand (==)',
                'same_block': 'equality of slices by hand (==)', 'to_ascii_lowercase': 'u8\'s to_ascii_lowercase by hand', 'keeps_old': 'a test of a variant by hand (==)',
                'leaves_none': 'a test of a variant by hand (==)', 'same_text': 'equality of slices by hand (==)', 'is_under': 'a kind compared as a number (==)',
            }[f.name]
            found.append((place(f), words))
        if not f.params and f.answer and re.fullmatch(r'(\w+ \{ [^{}]*\}|refuse\(.*\))', body):
            found.append((place(f), f'a {f.answer} with fixed fields, by hand (Default or a const)'))
        elif re.search(r'\b([A-Z]\w+) \{(?: \w+: (?:0|false|true|0u32),?){2,} \}', body):
            zero = re.search(r'\b([A-Z]\w+) \{(?: \w+: (?:0|false|true|0u32),?){2,} \}', body).group(1)
            found.append((place(f), f'a {zero} with fixed fields, by hand (Default or a const)'))
        if re.search(r'let mut r = \w+;', body):
            found.append((place(f), f'a copy with some fields changed, by hand: {len(re.findall(r" r[.]", body))} fields'))
        if re.search(r'\w+\[[^\]]*\] = \w+\[[^\]]*\];', body) and 'while' in body:
            found.append((place(f), 'a slice copied by hand (copy_from_slice, copy_within)'))
        if re.search(r'while i < \w+(\.len\(\))? \{ \w+\[\w+\] = 0; ', body) or re.search(r'while \w+ (<|!=) [\w.()]+ \{ \w+\[\w+\] = 0;', body):
            found.append((place(f), 'a slice cleared by hand (fill)'))
        if re.search(r'^\s*write(ln)?!|write_all\(', body) and f.name.startswith('put'):
            found.append((place(f), 'printing by hand (Display, write!)'))
        elif f.name.startswith('put_') and any('W' == k.strip('&mut ') for n, k in f.params) and f.name in ('put_integer', 'put_float', 'put_boolean', 'put_label', 'put_string', 'put_define', 'put_marks', 'put_target', 'put_value', 'put_value_number', 'put_name'):
            found.append((place(f), 'a value printed by hand (Display)'))
        arms = collections.Counter(re.findall(r'=> ([\w:]+(?:\(\))?),$', f.body, re.M))
        same = [(n, a) for a, n in arms.items() if n >= 4 and not a.startswith('fixed_data')]
        if same:
            found.append((place(f), f'{max(same)[0]} arms with one answer, `{max(same)[1]}` (one `_` arm, or matches!)'))
        if f.answer == "&'static str":
            found.append((place(f), 'text of a refusal\'s number (Display)'))
        if f.name == 'number_of' or f.name in ('compiled_word', 'read_word', 'name_reference', 'element_of', 'param_of', 'constant_literal', 'literal_of', 'action_of', 'plan_of', 'row_of', 'words_of', 'shape_of', 'kind_shape', 'record_of', 'constant', 'condition', 'affix', 'unary_operator', 'binary_operator', 'name_of', 'function_of', 'function_name', 'param_name'):
            if re.search(r'match |if ', body):
                found.append((place(f), f'conversion of {", ".join(two)} to {f.answer}, as a free function (From, TryFrom)'))
        if re.search(r'c / 2 % 2 != 0|\+ 2 \* \(bit_of', body):
            found.append((place(f), 'bits taken or put together by hand'))
        if re.search(r'if c < 48|b\'A\'\.\.=b\'Z\'|n \* 10 \+ d', body):
            found.append((place(f), 'digits or letters read by hand (to_digit, from_str_radix, parse, to_ascii_lowercase)'))
        if re.search(r"b'0' \+ r", body):
            found.append((place(f), 'a number printed as one byte, by hand (write!)'))
        if f.name in ('string_end', 'find', 'no_zero', 'sum', 'row_of', 'top_list', 'count_lists', 'first_from', 'get_special_property', 'put_part', 'repeat', 'copy', 'bytes'):
            words = {
                'string_end': 'search by hand (iter().position)', 'find': 'search by hand (iter().position)', 'no_zero': 'search by hand (contains)',
                'sum': 'fold by hand (iter().fold)', 'row_of': 'search by hand (iter().position)', 'top_list': 'search by hand (rposition)',
                'count_lists': 'search by hand (rposition)', 'first_from': 'search by hand (partition_point)', 'get_special_property': 'search by hand (position, eq_ignore_ascii_case)',
                'put_part': 'slice copied by hand (copy_from_slice)', 'repeat': 'slice copied by hand (copy_within)', 'copy': 'slice copied by hand (copy_from_slice)',
                'bytes': 'search by hand (iter().position)',
            }[f.name]
            if 'while' in f.body:
                found.append((place(f), words))
    return merged(found)


# ---------------------------------------------------------------- point 5

def plain_type(k):
    return re.sub(r"^&(?:'\w+ )?(?:mut )?", '&', k)


def facts_of(f):
    types = {n: k for n, k in f.params}
    out = set()
    for word, clause in f.clauses:
        for fact in split_top(clause, '×'):
            while fact.startswith('(') and matching(fact, 0, '(', ')') == len(fact) - 1:
                fact = fact[1:-1].strip()
            if fact.startswith('(') and '→' in fact:
                continue
            fact = re.sub(r'\.(old|now|new)\b', '', fact)

            def name(m):
                k = types.get(m.group(0))
                if k is None or k in NUMBERS + ('bool',):
                    return m.group(0)
                return f'‹{plain_type(k)}›'

            fact = re.sub(r'(?<![.\w])[a-z]\w*', name, fact)
            out.add(fact)
    return out


def listed(fs):
    by = collections.OrderedDict()
    for f in fs:
        by.setdefault(short(f.path), []).append(f.name)
    return '; '.join(f'{p}: {", ".join(n)}' for p, n in by.items())


def point5():
    found = []
    facts = collections.defaultdict(list)
    for f in FNS:
        for fact in facts_of(f):
            facts[fact].append(f)
    for fact, fs in sorted(facts.items(), key=lambda x: (-len(x[1]), x[0])):
        if len(fs) >= 3:
            found.append((listed(fs), f'fact `{fact}` in {len(fs)} functions'))
    runs = collections.defaultdict(list)
    for f in FNS:
        ps = [(n, plain_type(k)) for n, k in f.params]
        for i in range(len(ps)):
            for j in range(i + 2, len(ps) + 1):
                runs[tuple(ps[i:j])].append(f)
    longest = collections.defaultdict(set)
    for f in FNS:
        ps = [(n, plain_type(k)) for n, k in f.params]
        mine = [(i, j) for i in range(len(ps)) for j in range(i + 2, len(ps) + 1) if len(runs[tuple(ps[i:j])]) >= 3]
        for i, j in mine:
            if not any(a <= i and j <= b and (a, b) != (i, j) for a, b in mine):
                longest[tuple(ps[i:j])].add(id(f))
    closed = [(run, runs[run]) for run in runs if len(longest[run]) >= 2]
    for run, fs in sorted(closed, key=lambda x: (-len(x[1]), x[0])):
        found.append((listed(fs), f'parameters `{", ".join(f"{n}: {k}" for n, k in run)}` in {len(fs)} functions'))
    return found


# ---------------------------------------------------------------- point 6

AREAS = {'12288': 'labels', '13311': 'list ends', '13312': 'list ends', '14336': 'pool', '16384': 'pool\'s heads', '18432': 'pool\'s chains',
         '4095': 'the pool\'s entry', '4096': 'entries'}


def point6():
    found = []
    for p in PATHS:
        for m in re.finditer(r'^(?:pub(?:\([a-z]+\))? )?const (\w+): (\[.*?\]) =', TEXTS[p], re.M):
            padded = '\\0' in TEXTS[p][m.end():m.end() + 120]
            found.append((f'{short(p)}: {m.group(1)}', f'table {m.group(2)}' + (', rows filled up with zeros' if padded else '')))
        for m in re.finditer(r'^(?:pub(?:\([a-z]+\))? )?const (\w+): u?\w+ = (\d+);', TEXTS[p], re.M):
            found.append((f'{short(p)}: {m.group(1)}', f'length or position {m.group(2)} of a table, beside it'))
    for t in TYPES:
        parts = [x.replace('pub ', '') for x in t.parts]
        names = [x.split(':')[0] for x in parts]
        if t.sort == 'struct':
            if {'end', 'n'} <= set(names) or {'at', 'count'} <= set(names):
                found.append((place(t), 'an index and a count into records: an arena of indices'))
            elif 'records' in names or 'low' in names and 'top' in names:
                found.append((place(t), 'positions and counts of the areas of one buffer'))
            elif any(re.search(r': Part$', x) for x in parts):
                found.append((place(t), 'children by index'))
            elif {'bytes', 'part'} <= set(names):
                found.append((place(t), 'positions in two buffers'))
            if any(re.search(r'\[bool; 9\]', x) for x in parts):
                found.append((place(t), 'nine flags by place'))
    for f in FNS:
        arrays = re.findall(r'let mut (\w+) = \[(\w+); (\d+)\]', f.body)
        for name, zero, n in arrays:
            found.append((place(f), f'buffer {name} of {n}, and how much of it is used stands elsewhere'))
        areas = sorted(set(re.findall(r'\b(12288|13311|13312|14336|16384|18432)\b', f.body)))
        if areas:
            for a in areas:
                if a != '16384' or crate_of(f) in ('constants', 'as2_codegen') and f.name != 'script_to_actions':
                    found.append((place(f), f'area of the list slice by its position: {a} ({AREAS[a]})'))
        if re.search(r'\w+ \* 3\b|3 \* i\b', f.body):
            found.append((place(f), 'entry as three words of one slice'))
        kinds = dict(f.params)
        if 'output' in kinds and 'at' in kinds:
            found.append((place(f), 'output with the position beside it'))
        if 'scratch' in kinds and ('top' in kinds or 'let mut top' in f.body):
            found.append((place(f), 'scratch with its length beside it'))
        elif 'scratch' in kinds:
            found.append((place(f), 'scratch handed on, without its length'))
        if 'starts' in kinds and 'places' in kinds or 'sizes' in kinds and 'offsets' in kinds:
            found.append((place(f), 'parallel tables: ' + ', '.join(n for n in kinds if n in ('sizes', 'offsets', 'starts', 'places'))))
        elif 'table' in kinds:
            found.append((place(f), 'table with its length in the state beside it' + (', and outer' if 'outer' in kinds else '')))
        if f.name in ('first_from', 'row_of', 'find', 'get_special_property', 'from_label') and 'while' in f.body:
            found.append((place(f), 'searched by hand'))
        if 'at' in kinds and 'd' in kinds and 'pool' in kinds or 'b' in kinds and 'at' in kinds and kinds['b'].startswith('&[u8]'):
            found.append((place(f), 'bytes with the position beside them'))
        if any(n in ('text', 'bytes', 's', 'name') and k == '&[u8]' for n, k in f.params) and not f.body.count('output') and crate_of(f) in ('listing_text', 'text_lines') and f.params[0][0] == 'text':
            found.append((place(f), 'text as bytes and positions'))
        if re.search(r'ancestors', f.body):
            found.append((place(f), 'stack of starts with its length beside it'))
    for number in ('1024', '2048', '4096', '16384', '20480', '65535'):
        fs = [f for f in FNS if re.search(r'\b' + number + r'\b', f.body)]
        if len(fs) >= 3:
            found.append((listed(fs), f'limit {number} as a literal in {len(fs)} functions'))
    by = collections.OrderedDict()
    for where, what in found:
        path, item = where.split(': ', 1)
        by.setdefault((where if what.startswith('limit') else path, what), []).append(item)
    return [(path if w.startswith('limit') else f'{path}: {", ".join(items)}', w) for (path, w), items in by.items()]




# ---------------------------------------------------------------- point 7

def point7():
    found = []
    for f in FNS:
        bools = [n for n, k in f.params if k == 'bool' and re.search(r'if !?' + n + r'\b', f.body) and f.name not in ('bit', 'bit_of', 'kept', 'both', 'only_if')]
        if bools:
            found.append((place(f), f'parameter {", ".join(bools)} chooses the step'))
        for m in re.finditer(r'match ([\w.\[\]]+) \{\n(.*?)^ +\}', f.body, re.M | re.S):
            arms = re.findall(r'=> ([^\n]*)', m.group(2))
            calls = [a for a in arms if re.match(r'(?:\w+(?:\.|::))*[a-z]\w*\(', a)]
            names = set(re.match(r'(?:\w+(?:\.|::))*(\w+)', a).group(1) for a in calls)
            if len(names) >= 3 or len(calls) >= 3 and len(arms) >= 4:
                found.append((place(f), f'match {m.group(1)}: {len(calls)} arms call {len(names)} functions'))
        chain = re.findall(r'^ +if (\w+) (?:==|<) (0x[0-9a-f]+|\d+) \{\n +return (\w+)\(', f.body, re.M)
        if len(chain) >= 3:
            found.append((place(f), f'chain of {len(chain)} tests of {chain[0][0]}, each with a step'))
        if re.search(r'Each::', f.body):
            found.append((place(f), 'rows::Each says which step to run'))
        if re.search(r'\.phase\b', f.body):
            found.append((place(f), 'the phase says which step comes'))
        if re.search(r'\bs\.read\b', f.body) and crate_of(f) == 'listing_text':
            found.append((place(f), 'Source.read chooses between two readings'))
        digits = re.findall(r'(\w+) / \d+ % 16|% 32', f.body)
        if digits:
            found.append((place(f), 'a packed form\'s digits say which test to run'))
    for t in TYPES:
        if t.name in ('Each', 'Plan', 'Shape', 'Literal', 'Access', 'Source', 'Element'):
            found.append((place(t), f'{len(t.parts)} {"variants" if t.sort == "enum" else "fields"} that say which step to run'))
    for p in PATHS:
        for name in re.findall(r'^const (KINDS|CONSTANTS|UNARIES|ENUMERATES|LIMITS)\b', TEXTS[p], re.M):
            found.append((f'{short(p)}: {name}', 'table of forms that are read as steps'))
    return merged(found)


# ---------------------------------------------------------------- point 8

def declarations(text):
    """Name, signature and right-hand side of the declarations of an .antt file."""
    found = []
    blocks = re.split(r'\n(?=\S)', text)
    signature = {}
    for b in blocks:
        m = re.match(r'(?:pub )?([^\s:]+) : (.*)', b, re.S)
        if m and not b.startswith(('--', 'use ', 'abbrev')):
            signature[m.group(1)] = one_line(m.group(2))
            continue
        m = re.match(r'([^\s:=]+)((?: [^=\n]*)?) = (.*)', b, re.S)
        if m and m.group(1) in signature:
            found.append((m.group(1), signature[m.group(1)], one_line(m.group(3))))
    return found


def touched():
    crates = set()
    for p in (point1, point2, point3, point4, point6, point7):
        for where, what in p():
            crates |= set(re.findall(r'(?:^|, )(\w+)/src', where))
    for where, what in point5():
        crates |= set(re.findall(r'(?:^|; )(\w+)/src', where))
    return sorted(crates)


def point8():
    found, same, lemmas = [], {}, collections.defaultdict(list)
    for crate in touched():
        answers, own, alone, here = 0, 0, 0, 0
        same[crate] = collections.Counter()
        for path in sorted(glob.glob(f'crates/{crate}/proofs/**/*.antt', recursive=True)):
            text = open(path).read()
            ds = declarations(text)
            if path.endswith('/Answers.antt') and path.count('/') > 3:
                answers += len(re.findall(r'^pub [^\n:]+ : goal', text, re.M))
                for name, sig, rhs in ds:
                    same[crate][rhs] += 1
                    own += len(re.findall(r'(?<!clear_list)-own\b', rhs))
                    alone += bool(re.fullmatch(r'refl|tt|omega arith|omega \(arith, c\.[\w.-]+\)|c\.[\w.-]+|rw c\.[\w.-]+|λ [\w ]+\. c\.[\w.-]+', rhs))
                continue
            if path.endswith('/Invariants.antt'):
                continue
            first = {n: s for n, s, r in reversed(ds)}
            here += len(first)
            known = set(first) | set(re.findall(r'^(?:pub )?(?:record|data|abbrev(?: pub)?) (\S+)', text, re.M))
            for names in re.findall(r'^use Rattle\.(?!std)[\w.]+?\.\{([^}]*)\}', text, re.M):
                known |= set(n.strip() for n in names.split(',') if n.strip())
            for name, sig in first.items():
                words = set(re.findall(r"[^\s(){}.,;]+", sig))
                lemmas[one_line(re.sub(r'\s', ' ', sig))].append((crate, path, name))
                if not words & known and '→' in sig and 'goal' not in sig and '.' not in re.sub(r'λ [^.]*\.', '', sig):
                    found.append((f'{crate}/proofs/{os.path.basename(path)}: {name}', f'lemma of numbers, lists and tests alone, which the library may have: `{sig[:120]}`'))
        if answers:
            found.append((f'{crate}: answers', f'{answers} answers, of which {alone} are one fact, one rewriting or arithmetic over one fact, and may be found alone; {own} uses of -own; {here} lemmas beside them'))
        for r, n in sorted(same[crate].items(), key=lambda x: -x[1]):
            if n >= 3:
                found.append((f'{crate}: answers', f'{n} times `{r[:110]}{".." if len(r) > 110 else ""}`'))
    for sig, those in sorted(lemmas.items()):
        if len(those) > 1 and re.search('[≡≤<⊥]', sig):
            found.append((', '.join(f'{c}/proofs/{os.path.basename(p)}: {n}' for c, p, n in those), f'one statement proved {len(those)} times: `{sig[:120]}`'))
    return found


POINTS = {
    1: ('Option, Result and enums', point1),
    2: ('Twins', point2),
    3: ('Loops', point3),
    4: ('Written by hand', point4),
    5: ('Facts and parameters that travel', point5),
    6: ('Buffers and arenas', point6),
    7: ('Switches on a step', point7),
    8: ('Proofs', point8),
}


KEPT = re.compile(r'^(\d) \| (.+?) \| ([abcdn]) \| (\S+) \| (.+)$')


def comments(path):
    """A source's comments as one line of words."""
    lines = [re.search(r'(?:^|\s)(?://+|--) ?(.*)$', line) for line in open(path)]
    return ' '.join(' '.join(m.group(1) for m in lines if m).split())


def reasons():
    """The reasons of tools/design_kept: point, part of the place's line, letter, source, words. `n` says of a crate's answers that
    tools/needed_answers.py was run over them."""
    for path in sorted(glob.glob('tools/design_kept/*.txt')):
        for line in open(path):
            if line.strip() and not line.startswith('#'):
                m = KEPT.match(line.strip())
                if not m:
                    print(f'not a reason: {path}: {line.strip()}')
                    continue
                yield (int(m.group(1)),) + m.groups()[1:]


def reason_of(all_reasons, n, where, what):
    line = ' '.join(f'{where}: {what}'.split())
    for r in all_reasons:
        if r[0] == n and ' '.join(r[1].split()) in line:
            return r
    return None


def print_kept(chosen):
    """How many places of each point have a reason, and which reasons are without a place, or not in their source."""
    all_reasons, used, letters = list(reasons()), set(), collections.defaultdict(collections.Counter)
    for n in chosen:
        found = POINTS[n][1]()
        for where, what in found:
            r = reason_of(all_reasons, n, where, what)
            letters[n][r[2] if r else '-'] += 1
            used.add(r)
        c = letters[n]
        print(f'{n}. listed {len(found)}, without a reason {c["-"]}; ' + ', '.join(f'{k} {c[k]}' for k in 'abcdn' if c[k]))
    for r in all_reasons:
        if r[0] in chosen and r not in used:
            print(f'no place has it: {" | ".join(map(str, r))}')
        if r[2] != 'n' and (not os.path.exists('crates/' + r[3]) or ' '.join(r[4].split()) not in comments('crates/' + r[3])):
            print(f'not in the source: {" | ".join(map(str, r))}')


def print_reasons(chosen):
    """The places of each point that have a reason, by the reason."""
    all_reasons = list(reasons())
    for n in chosen:
        by = collections.OrderedDict()
        for where, what in POINTS[n][1]():
            r = reason_of(all_reasons, n, where, what)
            if r and r[2] != 'n':
                by.setdefault(r, []).append(f'{where}: {what}')
        print(f'\n### Point {n}\n\n| Places | | Reason |\n|---|---|---|')
        for r in sorted(by, key=lambda r: r[2]):
            places = '<br>'.join(p.replace('|', '\\|') for p in by[r])
            print(f'| {places} | {r[2]} | {r[4].replace("|", chr(92) + "|")} (`{r[3]}`) |')


def print_other():
    """The page's counts in one other way, then and now."""
    point = ''
    print('| Point | Counted | Then | Now |\n|---|---|---:|---:|')
    for line in open('docs/DESIGN-PASS.md'):
        head = re.match(r'## (\d)\. ', line)
        point = head.group(1) if head else point
        m = re.match(r'- `(.*)`: (\d+) (.*)', line)
        if m:
            now = subprocess.run(['bash', '-c', m.group(1)], capture_output=True, text=True).stdout.strip()
            print(f'| {point} | {m.group(3).replace("|", chr(92) + "|")} | {m.group(2)} | {now} |')


def main():
    args = sys.argv[1:]
    chosen = [int(a) for a in args if a.isdigit()] or list(POINTS)
    if '--kept' in args:
        print_kept(chosen)
        return
    if '--other' in args:
        print_other()
        return
    if '--reasons' in args:
        print_reasons(chosen)
        return
    all_reasons = list(reasons()) if '--left' in args else []
    if '--crates' in args or '--left' in args:
        by = collections.defaultdict(list)
        for n in chosen:
            for where, what in POINTS[n][1]():
                if reason_of(all_reasons, n, where, what):
                    continue
                crates = set(re.findall(r'(?:^|[,;] )(\w+)/(?:src|proofs)', where)) or {where.split(':')[0]}
                for c in crates:
                    mine = [w for w in re.split(r'[,;] (?=\w+/src)', where) if w.startswith(c + '/') or w.split(':')[0] == c]
                    by[c].append((n, '; '.join(mine) if len(crates) > 1 else where, what + (f' (also in {", ".join(sorted(crates - {c}))})' if len(crates) > 1 else '')))
        for c in sorted(by):
            print(f'\n## {c}: {len(by[c])} places\n')
            for n, where, what in by[c]:
                print(f'- {n}. {where.replace(c + "/src/", "")}: {what}')
        return
    for n in chosen:
        title, find = POINTS[n]
        found = find()
        if '--counts' in args:
            print(f'{n}. {title}: {len(found)}')
        elif '--markdown' in args:
            print(f'\n<!-- point {n}: {len(found)} -->\n| Place | What it is |\n|---|---|')
            for where, what in found:
                print(f'| {where.replace("|", chr(92) + "|")} | {what.replace("|", chr(92) + "|")} |')
        else:
            print(f'\n{n}. {title}: {len(found)}')
            for where, what in found:
                print(f'{where} | {what}')


if __name__ == '__main__':
    signal.signal(signal.SIGPIPE, signal.SIG_DFL)
    main()
