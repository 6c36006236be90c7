#!/usr/bin/env python3
"""Takes a crate's answers that the check finds alone out of it.

  python3 tools/needed_answers.py CRATE [CRATE ..]

Each answer of a goal is taken out, `rt check` names the goals that it then leaves open, and their answers come back, until the
crate is proved. What is left is needed.
"""
import os
import re
import subprocess
import sys

ROOT = os.path.join(os.path.dirname(os.path.abspath(__file__)), '..')
HEAD = re.compile(r'^pub (\S+) : goal\.')


def entries(text):
    """The file as pieces: (name of the goal or None, text)."""
    pieces, name, lines, pending = [], None, [], []
    for line in text.split('\n'):
        head = HEAD.match(line)
        if head or (line and not line[0].isspace() and line[0] not in ')}]' and name and not line.startswith(name + ' ') and not line.startswith('--')):
            pieces.append((name, '\n'.join(lines)))
            name, lines = (head.group(1) if head else None), pending
            pending = []
            lines.append(line)
        elif line.startswith('--'):
            pending.append(line)
        else:
            lines += pending
            pending = []
            lines.append(line)
    pieces.append((name, '\n'.join(lines + pending)))
    return pieces


def without_idle_names(text):
    """The text without the imported names that it does not use."""
    lines = text.split('\n')
    body = '\n'.join(line for line in lines if not line.startswith('use '))

    def is_used(name):
        word = name.strip().split(' as ')[-1].strip()
        if '◌' in word:
            return all(part in body for part in word.split('◌') if part)
        return re.search(r'(?<![\w-])' + re.escape(word) + r'(?![\w-])', body)

    kept = []
    for line in lines:
        m = re.match(r'use (\S+)\.\{(.*)\}$', line)
        if m:
            names = [n.strip() for n in m.group(2).split(',') if is_used(n)]
            if not names:
                continue
            line = f'use {m.group(1)}.{{{", ".join(names)}}}'
        kept.append(line)
    return '\n'.join(kept)


def write(path, pieces, open_goals):
    kept = [t for n, t in pieces if n is None or n in open_goals]
    if all(n is None or n not in open_goals for n, t in pieces) and not re.search(r'^(?!use |\s*$|--)', pieces[0][1], re.M) and len([p for p in pieces if p[0] is None]) == 1:
        if os.path.exists(path):
            os.remove(path)
        return
    with open(path, 'w') as f:
        f.write(without_idle_names(re.sub(r'\n{3,}', '\n\n', '\n'.join(kept)).strip('\n') + '\n'))


def check(crate):
    r = subprocess.run(['rt', 'check'], cwd=f'{ROOT}/crates/{crate}', capture_output=True, text=True)
    return r.stdout + r.stderr


def main():
    for crate in sys.argv[1:]:
        base = f'{ROOT}/crates/{crate}'
        files = {}
        for d, _, names in os.walk(base + '/proofs'):
            if 'Answers.antt' in names:
                path = os.path.join(d, 'Answers.antt')
                pieces = entries(open(path).read())
                if any(n for n, _ in pieces):
                    files[path] = pieces
        needed = {p: set() for p in files}
        total = sum(1 for p in files for n, _ in files[p] if n)
        for turn in range(12):
            for p in files:
                write(p, files[p], needed[p])
            out = check(crate)
            if re.findall(r'^logic=(\S+)', out, re.M)[-1:] == ['proved']:
                break
            more = 0
            pending = []
            for line in out.split('\n'):
                pending += re.findall(r'\(`([^`\s]+)`\)', line) if line.startswith('note:') else []
                m = re.match(r'fn (\S+): (?!proved)', line)
                if not m:
                    continue
                wanted = re.findall(r'`([^`\s]+)`', line) + pending
                pending = []
                parts = m.group(1).split('::')[1:]
                own = f'{base}/proofs/{"/".join(parts)}/Answers.antt'
                rings = [p for p in files if '/+' in p]
                for p in ([own] if own in files else rings):
                    names = {n for n, _ in files[p]} - {None}
                    found = {w for w in wanted if w in names} | {f'{parts[-1]}-{w}' for w in wanted if f'{parts[-1]}-{w}' in names}
                    if not found - needed[p] and own in files:
                        found = names
                    more += len(found - needed[p])
                    needed[p] |= found
            if not more:
                print(f'{crate}: the check stops at what names no answer; all answers are put back\n' + '\n'.join(out.split('\n')[-40:]))
                for p in files:
                    write(p, files[p], {n for n, _ in files[p]})
                break
        left = sum(len(needed[p]) for p in files)
        print(f'{crate}: {total} answers, {left} are needed, {turn + 1} checks', flush=True)
        for p in files:
            for n, _ in files[p]:
                if n and n not in needed[p]:
                    print(f'  out: {os.path.relpath(p, base)} {n}')


main()
