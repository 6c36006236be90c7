#!/usr/bin/env python3
"""Rows that compute the definition on files, one theorem by `refl` for each: antt refuses the rows that differ.

  definition_rows.py compile STDIN EXPECTED.COMPILE FIRST COUNT OUT [A V L]   script files of up to 2,000 bytes: lists, marks, bytes, refusals
  definition_rows.py read BYTES.STDIN BYTES.EXPECTED FIRST COUNT OUT          action bytes of up to 3,000 bytes: lists by place, or 14
  definition_rows.py lower STDIN EXPECTED.LOWERING FIRST COUNT OUT            longer script files, from their trees: lists and marks, or 5 to 8
  definition_rows.py number STDIN EXPECTED.COMPILE FIRST COUNT OUT            script files, from their trees: the refusal, 0 for none

OUT is a file of a crate's proofs/, in a repository whose crates.txt gives that crate `definition` and what that one leans on; `rt check` in the crate
then takes some 10 s for 200 short files. A V L are limits, for which `oracle limits A V L compile` makes the expected answers.
"""
import re
import struct
import sys


# ---------------------------------------------------------------- the text of files and answers


def decode(text):
    out, part, at = bytearray(), 0, 0
    while at < len(text):
        if text[at] == '@':
            part, at = len(out), at + 1
        elif text[at] == '*':
            end = text.index(':', at)
            count, unit = int(text[at + 1:end]), bytes(out[part:])
            out += (unit * (count // len(unit) + 1))[:count]
            part, at = len(out), end + 1
        else:
            digits = re.compile('[0-9a-f]+').match(text, at)
            out += bytes.fromhex(digits.group())
            at = digits.end()
    return bytes(out)


def rows(stdin, expected):
    """For each line: name, bytes, and the lines of its answer."""
    lines = [line.rstrip('\n').partition(' ') for line in open(stdin)]
    answers, names = [], iter([line[0] for line in lines] + [None])
    name = next(names)
    for line in open(expected):
        line = line.rstrip('\n')
        if line == name:
            answers.append([])
            name = next(names)
        else:
            answers[-1].append(line)
    return [(line[0], decode(line[2]), answer) for line, answer in zip(lines, answers)]


def refusal(answer):
    return int(answer[0].split()[1]) if answer[0].startswith('refused') else 0


# ---------------------------------------------------------------- antt terms


def runs(items):
    """Equal neighbours together, with their number."""
    at = 0
    while at < len(items):
        end = at
        while end < len(items) and items[end] == items[at]:
            end += 1
        yield items[at], end - at
        at = end


def listed(terms):
    """A list; runs of more than 16 equal terms in short."""
    out = ''
    for term, count in runs(list(terms)):
        out += 'replicate %d (%s) ++ ' % (count, term) if count > 16 else (term + ' ∷ ') * count
    return '(' + out + '[])'


def bytes_term(data):
    return listed(str(b) for b in data)


def string(text):
    return bytes_term(b'' if text == '-' else bytes.fromhex(text))


def values(words):
    out = []
    while words:
        case = words.pop(0)
        if case in ('Null', 'Undefined', 'True', 'False'):
            out.append('Value.' + case)
            continue
        value = words.pop(0)
        term = {'String': string, 'Float': lambda v: str(int(v, 16)), 'Integer': lambda v: str(int(v) % (1 << 32))}.get(case, str)(value)
        out.append('(Value.%s %s)' % (case, term))
    return listed(out)


def action(words):
    name, rest = words[0], words[1:]
    if name == 'Push':
        return 'Action.push ' + values(rest)
    if name in ('Jump', 'If'):
        return 'Action.branch Branching.%s %d' % (name, int(rest[0][3:], 16) if rest[0].startswith('loc') else int(rest[0]))
    if name == 'ConstantPool':
        return 'Action.plain (Plain.ConstantPool %s)' % listed(string(s) for s in rest)
    if name in ('StoreRegister', 'GotoFrame'):
        return 'Action.plain (Plain.%s %s)' % (name, rest[0])
    if name == 'GotoFrame2':
        return 'Action.plain (Plain.GotoFrame2 %s)' % ('true' if rest[1] == '1' else 'false')
    if name == 'GotoLabel':
        return 'Action.plain (Plain.GotoLabel %s)' % string(rest[0])
    if name == 'DefineFunction':
        return 'Action.define (Header.DefineFunction %s %s) %s' % (string(rest[0]), listed(string(s) for s in rest[1:-1]), rest[-1])
    if name == 'DefineFunction2':
        parameters, number, registers = rest[1:-11], rest[-11], rest[-10]
        marks = sum(int(m) << bit for bit, m in enumerate(rest[-9:]))
        terms = ['(record { name = %s; register = %s })' % (string(parameters[i]), parameters[i + 1]) for i in range(0, len(parameters), 2)]
        return 'Action.define (Header.DefineFunction2 %s %s %s %d) %s' % (string(rest[0]), listed(terms), registers, marks, number)
    return 'Action.plain (Plain.op op.%s)' % name


def lists(answer, item):
    """The terms of each list, and the bytes."""
    out, data = [], None
    for line in answer:
        words = line.split(' ')
        if words[0] == 'list':
            out.append([])
        elif words[0] == 'bytes':
            data = bytes.fromhex(words[2])
        elif words[0].endswith(':'):
            out[-1].append('Item.mark %d' % int(words[0][3:-1], 16))
        else:
            out[-1].append(item % action(words[1:]))
    return out, data


def tree(file):
    """The strings and the root of an accepted file; a tree is kind, a, b, c and its children."""
    at = len(file) - 20
    to_records, to_ends, _, count, _ = struct.unpack_from('<5I', file, at)
    strings, start, row = [], 0, []
    for end in struct.unpack_from('<%dI' % count, file, at - to_ends):
        strings.append(file[start:end])
        start = end
    for kind, a, b, c, size in struct.iter_unpack('<5I', file[at - to_records:at]):
        kids, left = [], size - 1
        while left:
            kids.insert(0, row.pop())
            left -= kids[0][1]
        row.append(((kind, a, b, c, tuple(k[0] for k in kids)), size))
    return strings, row[0][0]


def forest(trees):
    out = 'Forest.none'
    for (kind, a, b, c, kids), count in runs(trees):
        out = '(repeat %d (words %d %d %d %d) %s %s)' % (count, kind, a, b, c, forest(kids), out)
    return out


def script(file):
    strings, root = tree(file)
    text = '(λ i. getD %s i [])' % listed(bytes_term(s) for s in strings)
    return 'script-to-actions limits01 (mapForest (λ w. resolved %s (recordOf w)) %s)' % (text, forest(root[4]))


# ---------------------------------------------------------------- the file of rows

# module, its names, those of them that a row opens
USES = [
    ('Prim.Native.Nat', 'ℕ zero suc', ''), ('mathlib.Core.Path', '_≡_ refl', ''), ('mathlib.Core.List', 'List [] _∷_ _++_ map', ''),
    ('mathlib.Core.Bool', 'true false', ''), ('mathlib.Core.Option', 'none Option·elim', 'Option·elim'), ('lib.ListN', 'length getD replicate', ''),
    ('Rattle·hir.specs.Tree', 'Forest more mapForest depth', 'mapForest depth'),
    ('Rattle·pcode.specs.Pcode', 'Value Param Header Branching Plain Action Item', ''),
    ('Rattle·special_properties.specs.SpecialProperties', 'names same toAsciiLowercase firstFrom getSpecialProperty', None),
    ('Rattle·utf8.specs.Utf8', 'started next completes utf8', None),
    ('Rattle·script_records.specs.Layout',
     'Words wordAt layoutOf endAt stringAt stringsFrom stringsOf rowAt rowsFrom rowsOf spanAt forestIn forest',
     'wordAt layoutOf endAt stringAt stringsFrom stringsOf rowAt rowsFrom rowsOf spanAt forestIn forest'),
    ('Rattle·script_records.specs.Decode', 'signed binaryOperators unaryOf constantOf conditionOf statementKinds exprKinds plainOf recordOf', None),
    ('Rattle·script.specs.Forms', 'formOf allOf matches trees fits', None),
    ('Rattle·script.specs.Rules', 'allBelow partedIn parted recordHolds rootHolds rulesHold allUtf8 allSupported treeIn checkOf', None),
    ('Rattle·script.specs.Resolve', 'resolved scriptOf', None),
    ('Rattle·lowering.specs.Builder',
     'limits01 _>>=_ _>>_ pure refuse create-label stack-size assume-stack-delta action-with-stack-delta mark-label mark-default push add define-function',
     '_>>=_ _>>_ pure refuse create-label stack-size assume-stack-delta action-with-stack-delta mark-label mark-default push add define-function'),
    ('Rattle·lowering.specs.Statement', 'meanings generate-actions script-to-actions', None),
    ('Rattle·action_format.specs.Code', 'nest', None), ('Rattle·action_format.specs.Bytes', 'word zero-ended stored code-bytes', None),
    ('Rattle·action_format.specs.Offsets', 'position place-at', None), ('Rattle·action_format.specs.Encode', 'encode', None),
    ('Rattle·action_format.specs.Decode', 'decode read-code read-record read-value', None),
    ('Rattle·action_format.specs.Readers', 'read-byte read-word read-string read-bytes', None),
    ('Rattle·definition.specs.Compile', 'ifLowered compileWith', 'compileWith'), ('Rattle·definition.specs.Read', 'readWith readOf', 'readWith')]

HELPERS = '''
abbrev words : ℕ → ℕ → ℕ → ℕ → Words
words k a b c = record { kind = k; a = a; b = b; c = c }

abbrev repeat : ℕ → Words → Forest Words → Forest Words → Forest Words
repeat zero w kids before = before
repeat (suc n) w kids before = more (repeat n w kids before) w kids
'''


def head(mode):
    out = ['use %s.{%s}' % (module, ', '.join(names.split())) for module, names, _ in USES]
    out += ['use Rattle·pcode.specs.declared.Op.the-variants as op', 'use Rattle·lowering.specs.Statement as lowering']
    out += ['use Rattle·definition.specs.Outcome.{%s}' % ('Reading, read, refused' if mode == 'read' else 'Outcome, compiled, refused, numberOf')]
    return '\n'.join(out) + '\n' + HELPERS


OPENED = ' '.join(names if opened is None else opened for _, names, opened in USES if opened != '')


def statement(mode, file, answer, limits):
    number = refusal(answer)
    if mode == 'compile':
        limit = '(record { actions = %d; values = %d; labels = %d })' % limits
        found, data = lists(answer, 'Item.action (%s)') if not number else (None, None)
        outcome = 'refused %d' % number if number else 'compiled %s %s' % (bytes_term(data), listed(listed(x) for x in found))
        return 'compileWith %s %s %d 65536 ≡ %s' % (limit, bytes_term(file), 4 * sum(limits), outcome)
    if mode == 'read':
        found = lists(answer, '(%s)')[0] if not number else None
        outcome = 'refused %d' % number if number else 'read (record { top = %s; functions = %s }) %d' % (
            listed(found[0]), listed(listed(x) for x in found[1:]), len(file))
        return 'readOf %s 16384 ≡ %s' % (bytes_term(file), outcome)
    if mode == 'lower':
        found = listed(listed(x) for x in lists(answer, 'Item.action (%s)')[0]) if not number else None
        return '%s ≡ %s' % (script(file), 'lowering.refusal %d' % number if number else 'lowering.lists %s' % found)
    return 'numberOf (ifLowered (%s) 65536) ≡ %d' % (script(file), number)


def wanted(mode, file, answer):
    if mode == 'compile':
        return len(file) <= 2000
    if mode == 'read':
        return len(file) <= 3000
    return not 0 < refusal(answer) < 5 and (mode == 'number' or len(file) > 2000)


def main(arguments):
    if len(arguments) not in (6, 9) or arguments[0] not in ('compile', 'read', 'lower', 'number'):
        sys.exit(__doc__)
    mode, stdin, expected, first, count, out = arguments[:6]
    limits = tuple(map(int, arguments[6:])) or (1024, 2048, 1024)
    chosen = [row for row in rows(stdin, expected) if wanted(mode, row[1], row[2])][int(first):int(first) + int(count)]
    with open(out, 'w') as text:
        text.write(head(mode))
        for i, (name, file, answer) in enumerate(chosen):
            text.write('\n-- %s\npub r%d : %s\nunfolding %s\nr%d = refl\n' % (name, i, statement(mode, file, answer, limits), OPENED, i))
    print('%d rows' % len(chosen))


if __name__ == '__main__':
    main(sys.argv[1:])
