#!/usr/bin/env python3
"""Runs each command of the built program totsenak, and holds what it writes against texts and against other readers.

    scripts/totsenak.py TOTSENAK JS_LEX [FOLDER]

First each command is run on small files whose outcome is written out below: its text, its lines on standard error and
its status. Then each file of JavaScript in FOLDER is looked at, if one is given:

- `tokens --json`, `values` and `licences --json` are read by Python's reader of JSON;
- the tokens are those of js_lex with the word `auto`: kind, start and end;
- `strip` and `squeeze` refuse a file where `check` ends with 1, with its text; else the tokens of what they write have
  the same kinds and texts, and no comment is left;
- `licences` has the comments of these classes of `tokens --json`, each text once, with their lines.

What differs is told, and then the status is 1. Programs are built by `rt run` in their folders, or by `rt ci`.
"""

import json
import os
import pathlib
import subprocess
import sys
import tempfile

ENDINGS = {'.js', '.mjs', '.cjs'}

# Files by their names, for the runs below.
FILES = {
    'a.js': b'/*! One */\nlet a = b /* c */ / d; // @license Two\n',
    'b.mjs': b'/*! One */ export {\n  c };\r\n',
    'bad.js': b'let a = /x/gg; // b\n',
    'jsx.jsx': b'let e = <p>/* text */</p>; /*! Three */\n',
    'latin.js': b'a\xe9',
    'empty.js': b'',
    'html.js': b'a <!-- b\n',
}

REFUSED = b'bad.js:1:13: repeated flag of a regular expression U+0067\nlet a = /x/gg; // b\n            ^\n'
NO_FILE = b'totsenak: none.js: cannot be read\n'
LATIN = b'totsenak: latin.js: is not UTF-8 at offset 1\n'
HAS_JSX = b'totsenak: jsx.jsx: has JSX, and is not written anew\n'
STRIPPED = b' \nlet a = b   / d;  \n'
SQUEEZED = b'let a=b/d;\n'
LICENCES = (b'a.js:1\nb.mjs:1\n/*! One */\n\na.js:2\n// @license Two\n\njsx.jsx:1\n/*! Three */\n\n')
AS_JSON = (b'{"text":"/*! One */","places":[{"file":"a.js","line":1},{"file":"b.mjs","line":1}]}\n'
           b'{"text":"// @license Two","places":[{"file":"a.js","line":2}]}\n')
LICENCES_OF_A = b'a.js:1\n/*! One */\n\na.js:2\n// @license Two\n\n'

# Words, standard input, and what comes of them: the status, standard output, standard error, and files.
RUNS = [
    (['check', 'a.js', 'b.mjs', 'empty.js'], b'', 0, b'', b'', {}),
    (['check', 'bad.js', 'none.js', 'latin.js', 'a.js'], b'', 2, REFUSED, NO_FILE + LATIN, {}),
    (['check', '.'], b'', 2, b'', b'totsenak: .: cannot be read\n', {}),
    (['check', 'html.js'], b'', 0, b'html.js:1:3: warning: HTML comment in a module\na <!-- b\n  ^\n', b'', {}),
    (['check', '--script', 'html.js'], b'', 0, b'', b'', {}),
    (['check', '--module', 'html.js'], b'', 0, b'', b'', {}),
    (['check'], b'1a', 1, b'-:1:2: a name or a digit right behind a number\n1a\n ^\n', b'', {}),
    (['tokens', '-'], b'a=1', 0, b'1:1 Ident a\n1:2 Eq =\n1:3 Decimal 1\n1:4 Eof \n', b'', {}),
    (['values'], b'"a\\n" + `b${c}`', 0, b'"a\\u000a"\n"b"\n""\n', b'', {}),
    (['strip', 'a.js'], b'', 0, STRIPPED, b'', {}),
    (['strip', 'a.js', 'bad.js', 'jsx.jsx', 'none.js'], b'', 2, STRIPPED, REFUSED + HAS_JSX + NO_FILE, {}),
    (['squeeze', 'a.js', 'bad.js'], b'', 1, SQUEEZED, REFUSED, {}),
    (['squeeze'], b'a // b', 0, b'a', b'', {}),
    (['strip', '--jsx'], b'a', 2, b'', b'totsenak: -: has JSX, and is not written anew\n', {}),
    (['squeeze', '-o', 'out.js', 'a.js'], b'', 0, b'', b'', {'out.js': SQUEEZED}),
    (['squeeze', '--output', 'out.js', 'bad.js'], b'', 1, b'', REFUSED, {}),
    (['strip', '--write', 'a.js', 'bad.js', 'b.mjs'], b'', 1, b'', REFUSED,
     {'a.js': STRIPPED, 'b.mjs': b'  export {\n  c };\r\n'}),
    (['strip', '--licences', 'notice.txt', 'a.js', 'bad.js'], b'', 1, STRIPPED, REFUSED,
     {'notice.txt': LICENCES_OF_A}),
    (['strip', '-o', 'none/out.js', 'a.js'], b'', 4, b'', b'totsenak: none/out.js: cannot be written\n', {}),
    (['licences', 'a.js', 'b.mjs', 'jsx.jsx'], b'', 0, LICENCES, b'', {}),
    (['licences', '--json', 'a.js', 'latin.js', 'b.mjs'], b'', 2, AS_JSON, LATIN, {}),
    (['strip', '-o', 'out.js', 'a.js', 'b.mjs'], b'', 2, b'', b'totsenak: --output takes one file\n', {}),
    (['strip', '--write'], b'', 2, b'', b'totsenak: --write takes files, and not standard input\n', {}),
    (['--version'], b'', 0, b'totsenak 0.1.0\n', b'', {}),
]

# Words that are not valid: the status is 2, and one line is told.
MISTAKES = [[], ['chek'], ['check', '--none'], ['check', '--module', '--script'], ['tokens', '--json=1'],
            ['strip', '-o'], ['strip', '-o', 'x', '--write', 'a.js'], ['check', '-o', 'x', 'a.js'],
            ['values', '--json'], [b'check', b'\xff']]

# Words that ask for help: the status is 0, and standard output has something.
HELP = [['--help'], *[[command, '--help'] for command in ('check', 'tokens', 'values', 'strip', 'squeeze', 'licences')]]

TEXTS = {'Str', 'NoSubstitutionTemplate', 'TemplateHead', 'TemplateMiddle', 'TemplateTail'}
LEGAL = {'Legal', 'JsdocLegal'}


class Holder:
    def __init__(self, totsenak, js_lex):
        self.totsenak = str(pathlib.Path(totsenak).resolve())
        self.js_lex = str(pathlib.Path(js_lex).resolve())
        self.faults = 0
        self.held = 0

    def told(self, what, *more):
        self.faults += 1
        print('differs:', what, *more)

    def same(self, what, got, wanted):
        self.held += 1
        if got != wanted:
            self.told(what, '\n  got   ', repr(got)[:600], '\n  wanted', repr(wanted)[:600])

    def run(self, words, source=b'', folder=None, program=None):
        return subprocess.run([program or self.totsenak, *words], input=source, cwd=folder, stdout=subprocess.PIPE,
                              stderr=subprocess.PIPE)


def files_in(folder):
    return {path.name: path.read_bytes() for path in pathlib.Path(folder).iterdir() if path.is_file()}


def run_example(holder, words, source, status, out, err, written):
    with tempfile.TemporaryDirectory() as folder:
        for name, data in FILES.items():
            (pathlib.Path(folder) / name).write_bytes(data)
        ran = holder.run(words, source, folder)
        holder.same(('status', words), ran.returncode, status)
        holder.same(('output', words), ran.stdout, out)
        holder.same(('errors', words), ran.stderr, err)
        holder.same(('files', words), files_in(folder), {**FILES, **written})


def run_mistake(holder, words):
    ran = holder.run(words)
    holder.same(('status', words), ran.returncode, 2)
    holder.same(('output', words), ran.stdout, b'')
    holder.same(('lines', words), ran.stderr.count(b'\n'), 1)
    holder.same(('begins', words), ran.stderr[:10], b'totsenak: ')


def run_help(holder, words):
    ran = holder.run(words)
    holder.same(('status', words), (ran.returncode, ran.stderr), (0, b''))
    holder.same(('help', words), b'Usage' in ran.stdout and b'\x1b' not in ran.stdout, True)


def run_outputs(holder):
    """An output that fails, and one whose reader has gone."""
    many = b'a;' * 20000
    with open('/dev/full', 'wb') as full:
        ran = subprocess.run([holder.totsenak, 'tokens'], input=many, stdout=full, stderr=subprocess.PIPE)
    holder.same('full output', (ran.returncode, ran.stderr), (4, b'totsenak: cannot write the output\n'))
    reader, writer = os.pipe()
    os.close(reader)
    ran = subprocess.run([holder.totsenak, 'tokens'], input=many, stdout=writer, stderr=subprocess.PIPE)
    os.close(writer)
    holder.same('closed pipe', (ran.returncode, ran.stderr), (4, b''))


def run_modes(holder):
    """A file that is written in place keeps its mode, and a link leads to what it led to."""
    with tempfile.TemporaryDirectory() as folder:
        path = pathlib.Path(folder) / 'a.js'
        path.write_bytes(FILES['a.js'])
        path.chmod(0o640)
        link = pathlib.Path(folder) / 'link.js'
        link.symlink_to('a.js')
        ran = holder.run(['strip', '--write', 'link.js'], folder=folder)
        holder.same('link', (ran.returncode, link.is_symlink(), path.read_bytes()), (0, True, STRIPPED))
        holder.same('mode', path.stat().st_mode & 0o777, 0o640)
        holder.same('nothing is left', sorted(files_in(folder)), ['a.js', 'link.js'])


def json_lines(data):
    return [json.loads(line) for line in data.decode('ascii').splitlines()]


def type_word(path):
    return {'.mjs': 'module', '.cjs': 'script'}.get(path.suffix, 'unambiguous')


def tokens_of_js_lex(holder, path, source):
    ran = holder.run([type_word(path), 'no-tokens', 'auto'], source, program=holder.js_lex)
    if ran.returncode != 0:
        return None
    tokens = []
    for line in ran.stdout.split(b'\n'):
        words = line.split(b' ')
        if words[0] == b'token':
            start, end = words[2].split(b'..')
            tokens.append((words[1].decode(), int(start), int(end)))
    return tokens


def of_type(items, name):
    return [item for item in items if item['type'] == name]


def texts(source, tokens):
    return [(token['kind'], source[token['start']:token['end']]) for token in tokens]


def look_at_anew(holder, path, source, items, told):
    """What `strip` and `squeeze` make of a file."""
    before = texts(source, of_type(items, 'token'))
    for command in ('strip', 'squeeze'):
        ran = holder.run([command, str(path)])
        if told.returncode == 1:
            holder.same((command, path), (ran.returncode, ran.stdout, ran.stderr), (1, b'', told.stdout))
            continue
        holder.same((command, path), (ran.returncode, ran.stderr), (0, b''))
        said = ['--' + type_word(path)] if path.suffix in ('.mjs', '.cjs') else []
        again = holder.run(['tokens', '--json', *said], ran.stdout)
        after = json_lines(again.stdout)
        holder.same((command, 'tokens', path), texts(ran.stdout, of_type(after, 'token')), before)
        holder.same((command, 'comments', path), of_type(after, 'comment'), [])


def look_at_licences(holder, path, source, items):
    found = json_lines(holder.run(['licences', '--json', str(path)]).stdout)
    wanted = {}
    for comment in of_type(items, 'comment'):
        if comment['content'] in LEGAL:
            text = source[comment['start']:comment['end']].decode()
            wanted.setdefault(text, []).append({'file': str(path), 'line': comment['line']})
    holder.same(('licences', path), [(x['text'], x['places']) for x in found], list(wanted.items()))


def look_at(holder, path):
    source = path.read_bytes()
    told = holder.run(['check', str(path)])
    listed = holder.run(['tokens', '--json', str(path)])
    if told.returncode == 2:
        holder.same(('status', path), listed.returncode, 2)
        return
    items = json_lines(listed.stdout)
    tokens = [(token['kind'], token['start'], token['end']) for token in of_type(items, 'token')]
    of_js_lex = tokens_of_js_lex(holder, path, source)
    if of_js_lex is not None:
        holder.same(('tokens', path), tokens, of_js_lex)
    values = json_lines(holder.run(['values', str(path)]).stdout)
    holder.same(('values', path), values, [token['value'] for token in of_type(items, 'token')
                                           if token['kind'] in TEXTS and token['value'] is not None])
    look_at_anew(holder, path, source, items, told)
    look_at_licences(holder, path, source, items)


def main(arguments):
    if len(arguments) not in (2, 3):
        print(__doc__)
        return 2
    holder = Holder(arguments[0], arguments[1])
    for example in RUNS:
        run_example(holder, *example)
    for words in MISTAKES:
        run_mistake(holder, words)
    for words in HELP:
        run_help(holder, words)
    run_outputs(holder)
    run_modes(holder)
    count = 0
    if len(arguments) == 3:
        for path in sorted(pathlib.Path(arguments[2]).rglob('*')):
            if path.suffix in ENDINGS and path.is_file():
                look_at(holder, path)
                count += 1
    print(f'{count} files, {holder.held} comparisons, {holder.faults} that differ')
    return 1 if holder.faults else 0


if __name__ == '__main__':
    sys.exit(main(sys.argv[1:]))
