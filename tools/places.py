#!/usr/bin/env python3
"""Counts the places of docs/DESIGN-PASS.md in crates/*/src: tools/places.py [--list] [COMMIT]. Without a commit it reads the checkout."""
import collections
import difflib
import re
import subprocess
import sys

ARRAY = re.compile(r'^(\w+): &(?:\'a )?(?:mut )?(?:\[.*\]|\w*Line\b.*)$')
BESIDE = {'k', 'n', 'at', 'flows', 'count', 'len', 'base'}
HANDS = re.compile(r'^(byte|number|wide|narrow|lesser|larger|one_if|first_half|digit_byte|clear|with_values|of_\w+|side_of|pending_or_own|said_of)$')


def git(*words):
    return subprocess.run(['git', *words], check=True, capture_output=True, text=True).stdout


def sources(commit):
    """Each source file by its path, of a commit or of the checkout."""
    if commit:
        paths = git('ls-tree', '-r', '--name-only', commit, 'crates').split()
        read = lambda path: git('show', f'{commit}:{path}')
    else:
        paths = git('ls-files', '--cached', '--others', '--exclude-standard', 'crates').split()
        read = lambda path: open(path, encoding='utf-8').read()
    return {path: read(path) for path in paths if '/src/' in path and path.endswith('.rt')}


def functions(text):
    """Each function's name, parameters, contract, body and line."""
    for match in re.finditer(r'^ *(?:pub(?:\(crate\))? )?(?:extern "C" )?fn (\w+)', text, re.M):
        start = match.end()
        opening = text.index('(', start)
        depth, at = 0, opening
        while True:
            depth += {'(': 1, ')': -1}.get(text[at], 0)
            at += 1
            if depth == 0:
                break
        brace = re.search(r'^ *\{$|\{$', text[at:], re.M)
        indent = re.match(r' *', text[match.start():]).group()
        end = text.find('\n' + indent + '}', at)
        body_at = text.find('\n' + indent + '{\n', at)
        if body_at < 0 or body_at > end:
            body_at = at + (brace.start() if brace else 0)
        parameters = [part.strip() for part in re.split(r',\s*(?![^\[\]<>()]*[\])>])', text[opening + 1:at - 1]) if part.strip()]
        yield match.group(1), parameters, text[at:body_at], text[body_at:end], text.count('\n', 0, match.start()) + 1


def shape(body):
    """A body with each name and number as one letter."""
    return ['a' if re.match(r'\w', token) and token not in KEPT else token for token in re.findall(r'\w+|[^\w\s]', body)]


KEPT = {'if', 'else', 'while', 'for', 'in', 'loop', 'match', 'return', 'let', 'mut', 'as', 'true', 'false', 'Some', 'None', 'Ok', 'Err'}


def places(files):
    found = collections.defaultdict(list)
    shapes = []
    facts = collections.defaultdict(list)
    for path, text in sorted(files.items()):
        lines = text.split('\n')
        for number, line in enumerate(lines, 1):
            here = f'{path}:{number}: {line.strip()}'
            if re.match(r'^    (Refused\(Refusal\)|NoForm|NoNumber|None),$', line):
                found['1 own enum with a case for no answer'].append(here)
            if re.match(r'^ *//.*(; [^;,.]+ where there is none|; [^;,.]+ where none|for any other number|, 0 where there is none|number, 0 for none)', line):
                found['1 a number for no answer'].append(here)
            if re.search(r'number_of\(\w+, .*, (\d|place\w*\(side\))\)|: u8 = 1;|favoured\[\w+\] = [12]|== 1 \{ 2 \}|let mut alone = false|refused: &mut usize', line):
                found['1 a number for a kind, or a flag with a value beside it'].append(here)
            if re.search(r'^ *(while|loop)\b', line):
                found['3 loop that is no `for`'].append(here)
            if re.search(r'\bas (u16|u32|u64|usize|i64|u8)\b', line) and not line.strip().startswith('//') and 'use ' not in line:
                found['4 cast'].append(here)
        for name, parameters, contract, body, line in functions(text):
            here = f'{path}:{line}: {name}'
            if HANDS.match(name):
                found['4 function that std or a derive has'].append(here)
            if body.count('\n') > 2:
                shapes.append((shape(body), here))
            needs = re.findall(r'requires[^{]*\{(.*?)\}(?=\s*(?:requires|ensures|$))', contract, re.S)
            for fact in set(re.findall(r'\b([A-Z]\w+)\b', ' '.join(needs))):
                facts[fact].append(here)
            if len(parameters) > 5:
                found['5 more than five parameters'].append(f'{here}: {len(parameters)}')
            for first, second in zip(parameters, parameters[1:]):
                if ARRAY.match(first) and second.split(':')[0] in BESIDE and second.endswith(': usize'):
                    found['6 a buffer with a place or a length beside it'].append(f'{here}: {first}, {second}')
        for match in re.finditer(r'^(?:pub )?const (\w+(?:_AT|S))\b.*= (\d+|\w+);', text, re.M):
            if re.search(r'_AT$|^(INPUTS|LINKS)$', match.group(1)):
                found['6 a place in an array that holds several'].append(f'{path}: {match.group()}')
        for enum in re.findall(r'^enum (\w+)', text, re.M):
            matches = len(re.findall(r'match \w+ \{\s*' + enum + '::', text))
            if matches > 1:
                found['7 enum that says which step to run'].append(f'{path}: {enum}, matched {matches} times')
    for number, (one, here) in enumerate(shapes):
        for other, there in shapes[:number]:
            if '/exports/' not in here and difflib.SequenceMatcher(None, one, other, autojunk=False).ratio() > 0.95:
                found['2 function of another one\'s shape'].append(f'{here}, as {there.split(": ")[1]}')
                break
    for fact, users in facts.items():
        if len(users) > 2:
            found['5 a fact in three contracts or more'].append(f'{fact}: {len(users)}')
    return found


def main():
    words = sys.argv[1:]
    listed = '--list' in words
    commits = [word for word in words if word != '--list']
    found = places(sources(commits[0] if commits else None))
    for kind in sorted(found):
        print(f'{len(found[kind]):4}  {kind}')
        if listed:
            for place in found[kind]:
                print(f'          {place}')
    return 0


if __name__ == '__main__':
    sys.exit(main())
