#!/usr/bin/env python3
"""Writes what js_document_replay reads: edits of documents that choose their goals.

    document_cases.py edits FILE.jsonl    each edit of FILE (type, start, end, text, source in hexadecimal), and it taken back
    document_cases.py random FILE.jsonl N N texts made of the sources of FILE, each with some edits one behind the other

Each document is compared with a session over its text behind each edit, and what is told of the change with the tokens
before and behind it. In the folder of js_document_replay: `rt try --seconds 3000 --steps 2000000000 < CASES`.
"""
import json
import random
import sys

PIECES = ['{', '}', '`', '${', '/', '/*', '*/', '//', '\n', '"', "'", 'a', ' ', '(', ')', '/=', 'a/b/c', '`x${', '}`', '\r\n',
          '\u00e9', '\U0001d4b6', '=', '=>', '1', '.5', '<', '--', '<!--', '-->', '\\u{61}', ';',
          '<a>', '</a>', '<a/>', '/>', '>', '<', '&lt;']


def write(name, source, edits):
    out = sys.stdout.buffer
    out.write(f'{name} {len(source)} {len(edits)}\n'.encode() + source + b'\n')
    for start, end, text in edits:
        out.write(f'{start} {end} {len(text)}\n'.encode() + text + b'\n')


def is_text(data):
    try:
        data.decode()
        return True
    except UnicodeDecodeError:
        return False


def stored(cases):
    for case in cases:
        source, text = bytes.fromhex(case['source']), case['text'].encode()
        if not is_text(source):
            continue
        start, end = case['start'], case['end']
        edits = [(start, end, text)]
        if start <= end <= len(source) and is_text(source[:start]) and is_text(source[end:]):
            edits.append((start, start + len(text), source[start:end]))
        write(case['type'], source, edits)


def made(cases, count):
    random.seed(7)
    sources = [bytes.fromhex(case['source']) for case in cases]
    pool = [source.decode() for source in sources if is_text(source)]
    for _ in range(count):
        text = first = ''.join(random.choice(pool) for _ in range(random.randint(1, 4)))[:1500]
        edits = []
        for _ in range(random.randint(5, 25)):
            start = random.randint(0, len(text))
            end = min(len(text), start + random.choice([0, 0, 0, 1, 1, 2, 5, 30]))
            new = random.choice([random.choice(PIECES), random.choice(PIECES) + random.choice(PIECES), '',
                                 random.choice(pool)[:20]])
            edits.append((len(text[:start].encode()), len(text[:end].encode()), new.encode()))
            text = text[:start] + new + text[end:]
        write(random.choice(['module', 'script', 'unambiguous', 'jsx']), first.encode(), edits)


lines = [json.loads(line) for line in open(sys.argv[2])]
if sys.argv[1] == 'edits':
    stored(lines)
else:
    made(lines, int(sys.argv[3]))
