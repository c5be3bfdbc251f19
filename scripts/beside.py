#!/usr/bin/env python3
"""Times js_lex_c and js_bench beside other lexers of JavaScript, and prints a table.

    scripts/beside.py [--rounds N] [--passes N] [--bench PROGRAM] [--library ARCHIVE] [--only WORD] [FILE or FOLDER..]

Of a folder it takes the files of JavaScript below it, all in one, one behind the other. With no name it takes
TypeScript's compiler, as Debian's node-typescript has it, and the packages of npm that Debian has beside it. Each lexer
reads a file so many times in one process, which tells the processor time of its fastest pass; all take turns, in so
many rounds, and the least time of each counts. What is not installed or not built is left out, with a line that says
so. js_bench and js_lex_c are those that were built here; others are named. With --only those alone are run whose titles
have the word in them.

The others come from Debian's packages node-acorn, node-typescript and node-js-tokens (with node), and
golang-github-evanw-esbuild-dev and golang-github-tdewolff-parse-dev (with golang-go). Those that leave it to a parser
where a regular expression or a part of a template stands are told so by the rule of js_lex_auto (docs/GRAMMAR.md).
"""

import argparse
import json
import os
import pathlib
import resource
import shutil
import subprocess
import sys
import tempfile

TOP = pathlib.Path(__file__).resolve().parent.parent
NODE_MODULES = pathlib.Path("/usr/share/nodejs")
GO_CODE = pathlib.Path("/usr/share/gocode")
COMPILER = NODE_MODULES / "typescript/lib/typescript.js"
ENDINGS = {".js", ".mjs", ".cjs"}

# Each driver is run as COMMAND FILE PASSES, and prints the seconds of its fastest pass and how many tokens it read.

NODE_DRIVER = r"""
const [, , name, file, passes] = process.argv;
const text = require("fs").readFileSync(file, "utf8");

function acorn() {
    const { tokenizer, tokTypes } = require("acorn");
    const tokens = tokenizer(text, { ecmaVersion: "latest", onComment: [] });
    let count = 1;
    while (tokens.getToken().type !== tokTypes.eof) count++;
    return count;
}

function jsTokens() {
    let count = 0;
    for (const token of require("js-tokens")(text)) {
        const { type } = token;
        if (type !== "WhiteSpace" && type !== "LineTerminatorSequence" && !type.endsWith("Comment")) count++;
    }
    return count + 1;
}

function typescript() {
    const ts = require("typescript");
    const kinds = ts.SyntaxKind;
    const operands = new Set([
        kinds.Identifier, kinds.PrivateIdentifier, kinds.NumericLiteral, kinds.BigIntLiteral, kinds.StringLiteral,
        kinds.RegularExpressionLiteral, kinds.NoSubstitutionTemplateLiteral, kinds.TemplateTail, kinds.TrueKeyword,
        kinds.FalseKeyword, kinds.NullKeyword, kinds.ThisKeyword, kinds.SuperKeyword, kinds.CloseParenToken,
        kinds.CloseBracketToken, kinds.CloseBraceToken, kinds.PlusPlusToken, kinds.MinusMinusToken,
    ]);
    const ends = Array.from({ length: 512 }, (_, kind) => operands.has(kind) || kind > kinds.LastReservedWord);
    const scanner = ts.createScanner(ts.ScriptTarget.Latest, true, ts.LanguageVariant.Standard, text);
    const braces = [];
    let count = 0, ended = false, kind;
    do {
        kind = scanner.scan();
        if (kind === kinds.SlashToken || kind === kinds.SlashEqualsToken) {
            if (!ended) kind = scanner.reScanSlashToken();
        } else if (kind === kinds.OpenBraceToken || kind === kinds.TemplateHead) {
            braces.push(kind);
        } else if (kind === kinds.CloseBraceToken && braces.pop() === kinds.TemplateHead) {
            kind = scanner.reScanTemplateToken(false);
            if (kind === kinds.TemplateMiddle) braces.push(kinds.TemplateHead);
        }
        ended = ends[kind];
        count++;
    } while (kind !== kinds.EndOfFileToken);
    return count;
}

function measure(pass) {
    let seconds = Infinity, tokens;
    for (let i = 0; i < Number(passes); i++) {
        const begin = process.cpuUsage();
        tokens = pass();
        const { user, system } = process.cpuUsage(begin);
        seconds = Math.min(seconds, (user + system) / 1e6);
    }
    return { seconds, tokens };
}

try {
    console.log(JSON.stringify(measure({ acorn, jsTokens, typescript }[name])));
} catch (error) {
    console.error(String(error));
    process.exit(1);
}
"""

GO_MAIN = r"""
func seconds() float64 {
	var usage syscall.Rusage
	syscall.Getrusage(syscall.RUSAGE_SELF, &usage)
	return float64(usage.Utime.Nano()+usage.Stime.Nano()) / 1e9
}

func main() {
	source, err := os.ReadFile(os.Args[1])
	if err != nil {
		panic(err)
	}
	passes, _ := strconv.Atoi(os.Args[2])
	least, tokens := math.Inf(1), 0
	for i := 0; i < passes; i++ {
		begin := seconds()
		tokens = pass(source)
		least = math.Min(least, seconds()-begin)
	}
	fmt.Printf("{\"seconds\": %g, \"tokens\": %d}\n", least, tokens)
}
"""

ESBUILD_DRIVER = r"""
package main

import (
	"fmt"
	"math"
	"os"
	"strconv"
	"syscall"

	"github.com/evanw/esbuild/internal/config"
	"github.com/evanw/esbuild/internal/js_lexer"
	"github.com/evanw/esbuild/internal/logger"
)

func ends(kind js_lexer.T) bool {
	switch kind {
	case js_lexer.TIdentifier, js_lexer.TEscapedKeyword, js_lexer.TPrivateIdentifier, js_lexer.TNumericLiteral,
		js_lexer.TBigIntegerLiteral, js_lexer.TStringLiteral, js_lexer.TNoSubstitutionTemplateLiteral,
		js_lexer.TTemplateTail, js_lexer.TTrue, js_lexer.TFalse, js_lexer.TNull, js_lexer.TThis, js_lexer.TSuper,
		js_lexer.TCloseParen, js_lexer.TCloseBracket, js_lexer.TCloseBrace, js_lexer.TPlusPlus, js_lexer.TMinusMinus:
		return true
	}
	return false
}

func pass(source []byte) int {
	log := logger.NewDeferLog(logger.DeferLogNoVerboseOrDebug, nil)
	lexer := js_lexer.NewLexer(log, logger.Source{Contents: string(source)}, config.TSOptions{})
	count, ended, braces := 1, false, []bool{}
	for lexer.Token != js_lexer.TEndOfFile {
		regex := false
		switch lexer.Token {
		case js_lexer.TSlash, js_lexer.TSlashEquals:
			if !ended {
				lexer.ScanRegExp()
				regex = true
			}
		case js_lexer.TOpenBrace:
			braces = append(braces, false)
		case js_lexer.TTemplateHead:
			braces = append(braces, true)
		case js_lexer.TCloseBrace:
			if top := len(braces) - 1; top >= 0 && braces[top] {
				lexer.RescanCloseBraceAsTemplateToken()
				if lexer.Token == js_lexer.TTemplateTail {
					braces = braces[:top]
				}
			} else if top >= 0 {
				braces = braces[:top]
			}
		}
		ended = regex || ends(lexer.Token)
		count++
		lexer.Next()
	}
	return count
}
"""

TDEWOLFF_DRIVER = r"""
package main

import (
	"fmt"
	"io"
	"math"
	"os"
	"strconv"
	"syscall"

	"github.com/tdewolff/parse"
	"github.com/tdewolff/parse/js"
)

func ends(kind js.TokenType) bool {
	switch kind {
	case js.StringToken, js.TemplateToken, js.TemplateEndToken, js.RegExpToken, js.PrivateIdentifierToken,
		js.CloseBraceToken, js.CloseParenToken, js.CloseBracketToken, js.IncrToken, js.DecrToken, js.TrueToken,
		js.FalseToken, js.NullToken, js.ThisToken, js.SuperToken:
		return true
	}
	return js.IsIdentifier(kind) || js.IsNumeric(kind)
}

func pass(source []byte) int {
	lexer := js.NewLexer(parse.NewInputBytes(source))
	count, ended := 1, false
	for {
		kind, _ := lexer.Next()
		switch kind {
		case js.ErrorToken:
			if lexer.Err() != io.EOF {
				panic(lexer.Err())
			}
			return count
		case js.WhitespaceToken, js.LineTerminatorToken, js.CommentToken, js.CommentLineTerminatorToken:
			continue
		case js.DivToken, js.DivEqToken:
			if !ended {
				kind, _ = lexer.RegExp()
			}
		}
		ended = ends(kind)
		count++
	}
}
"""


class LeftOut(Exception):
    """Why a lexer is left out."""


def need(path):
    """The path, where something is there."""
    if not path.exists():
        raise LeftOut(f"{path} is not there")
    return path


def need_command(name):
    """The path of a command."""
    if not shutil.which(name):
        raise LeftOut(f"there is no {name}")
    return shutil.which(name)


def output_of(*command, **options):
    """What a command prints; where it fails, the first line of its errors tells why."""
    done = subprocess.run(command, capture_output=True, text=True, check=False, **options)
    if done.returncode:
        raise LeftOut((done.stderr.strip().splitlines() or [f"status {done.returncode}"])[0])
    return done.stdout


class Driver:
    """A program that tells the seconds of its fastest pass by itself."""

    def __init__(self, *command, **environment):
        self.command, self.environment = command, os.environ | environment

    def run(self, file, passes):
        """The seconds of a pass over the file, and the number of its tokens."""
        answer = json.loads(output_of(*self.command, file, str(passes), env=self.environment))
        return answer["seconds"], answer["tokens"]


class Library(Driver):
    """examples/c/speed.c over the archive."""

    def run(self, file, passes):
        words = output_of(*self.command, file, str(passes)).replace(",", "").split()
        if words[1] != "0:":
            raise LeftOut(" ".join(words[:2]))
        return float(words[words.index("ms") - 1]) / 1e3, int(words[words.index("tokens") - 1])


class Bench(Driver):
    """js_bench, which tells no time: a pass is the difference between a run of more passes and one of one."""

    def processor_time(self, file, passes):
        before = resource.getrusage(resource.RUSAGE_CHILDREN)
        with open(file, "rb") as source:
            printed = output_of(*self.command, str(passes), stdin=source)
        after = resource.getrusage(resource.RUSAGE_CHILDREN)
        return after.ru_utime + after.ru_stime - before.ru_utime - before.ru_stime, printed

    def run(self, file, passes):
        once, printed = self.processor_time(file, 1)
        more, _ = self.processor_time(file, passes + 1)
        return (more - once) / passes, int(printed.split()[1])


def js_lex_c(folder, words):
    archive = need(words.library)
    sources = [TOP / "examples/c/speed.c", TOP / "examples/heap.c"]
    output_of(need_command("cc"), "-O2", "-I", TOP / "include", *sources, archive, "-o", folder / "speed")
    return Library(folder / "speed")


def js_bench(_folder, words):
    return Bench(need(words.bench), "module", "no-tokens")


def js_bench_with_tokens(_folder, words):
    return Bench(need(words.bench), "module", "tokens")


def node(folder, name, package):
    """A driver over a package of node."""
    need(NODE_MODULES / package)
    driver = folder / "driver.js"
    driver.write_text(NODE_DRIVER)
    return Driver(need_command("node"), driver, name, NODE_PATH=str(NODE_MODULES))


def acorn(folder, _words):
    return node(folder, "acorn", "acorn")


def typescript(folder, _words):
    return node(folder, "typescript", "typescript")


def js_tokens(folder, _words):
    return node(folder, "jsTokens", "js-tokens")


def go(folder, package, text):
    """A driver in Go, built as a package of its own in the folder."""
    code = folder / "src" / package
    code.mkdir(parents=True)
    (code / "main.go").write_text(text + GO_MAIN)
    settings = {"GO111MODULE": "off", "GOPATH": f"{folder}:{GO_CODE}", "GOCACHE": str(folder / "cache")}
    output_of(need_command("go"), "build", "-o", code / "driver", ".", cwd=code, env=os.environ | settings)
    return Driver(code / "driver")


def esbuild(folder, _words):
    """Its lexer is internal, so that the driver has to stand in a copy of its tree."""
    tree = "src/github.com/evanw/esbuild"
    shutil.copytree(need(GO_CODE / tree), folder / tree)
    return go(folder, "github.com/evanw/esbuild/beside", ESBUILD_DRIVER)


def tdewolff(folder, _words):
    need(GO_CODE / "src/github.com/tdewolff/parse")
    return go(folder, "beside", TDEWOLFF_DRIVER)


# How each is called in the table, Debian's package that it is of, and what makes its driver.
LEXERS = [
    ("js_lex_c, all lists", None, js_lex_c),
    ("js_bench, comments", None, js_bench),
    ("js_bench, comments and tokens", None, js_bench_with_tokens),
    ("tdewolff's lexer, in Go", "golang-github-tdewolff-parse-dev", tdewolff),
    ("esbuild's lexer, in Go", "golang-github-evanw-esbuild-dev", esbuild),
    ("TypeScript's scanner", "node-typescript", typescript),
    ("acorn's tokenizer, comments", "node-acorn", acorn),
    ("js-tokens", "node-js-tokens", js_tokens),
]


def title_of(name, package):
    """A name with the version of its package, where that is known."""
    if not package or not shutil.which("dpkg-query"):
        return name
    query = ["dpkg-query", "-W", "-f", "${Version}", package]
    version = subprocess.run(query, capture_output=True, text=True, check=False).stdout
    return f"{name} ({version.partition('+')[0].partition('-')[0]})" if version else name


def drivers_in(folder, words):
    """The drivers of all that is there, by their titles."""
    drivers = {}
    for name, package, make in LEXERS:
        if words.only not in name:
            continue
        try:
            drivers[title_of(name, package)] = make(folder, words)
        except LeftOut as reason:
            print(f"{name} is left out: {reason}" + (f" (Debian: {package})" if package else ""))
    return drivers


def texts_below(folder):
    """The files of JavaScript below a folder, without hashbang comments; TypeScript's are not among those of npm."""
    for path in sorted(folder.rglob("*")):
        if path.suffix not in ENDINGS or path.is_symlink() or not path.is_file():
            continue
        if COMPILER.parent in path.parents:
            continue
        try:
            text = path.read_text(encoding="utf-8")
        except UnicodeDecodeError:
            continue
        yield text.partition("\n")[2] if text.startswith("#!") else text


def file_of(name, folder):
    """A file, or one in the folder that has all texts below another folder."""
    path = pathlib.Path(name)
    if not path.is_dir():
        return path
    whole = folder / f"{path.name}.js"
    whole.write_text("\n".join(texts_below(path)), encoding="utf-8")
    return whole


def measure(drivers, file, rounds, passes):
    """The least seconds of each over a file, and its tokens, all in turn; one that fails is left out."""
    least, tokens = {}, {}
    for _ in range(rounds):
        for title, driver in list(drivers.items()):
            try:
                seconds, tokens[title] = driver.run(file, passes)
            except LeftOut as reason:
                print(f"{title} is left out of {file}: {reason}")
                drivers = {key: value for key, value in drivers.items() if key != title}
            else:
                least[title] = min(seconds, least.get(title, seconds))
    return {title: (seconds, tokens[title]) for title, seconds in least.items()}


def print_table(name, file, measures):
    """The table of a file; the last column has the speed of the first lexer as so many times that of each."""
    size = os.path.getsize(file)
    first = next(iter(measures.values()))[0]
    print(f"\n{name}, {size:,} bytes\n\n| | tokens | MB/s | the first is so many times as fast |\n|---|---|---|---|")
    for title, (seconds, tokens) in measures.items():
        print(f"| {title} | {tokens:,} | {size / 1e6 / seconds:.1f} | {seconds / first:.2f} |")


def main():
    words = argparse.ArgumentParser(description=__doc__, formatter_class=argparse.RawDescriptionHelpFormatter)
    words.add_argument("--rounds", type=int, default=5)
    words.add_argument("--passes", type=int, default=8)
    words.add_argument("--bench", type=pathlib.Path, default=TOP / "crates/js_bench/out/js_bench", metavar="PROGRAM")
    words.add_argument(
        "--library", type=pathlib.Path, default=TOP / "crates/js_lex_c/out/libjs_lex_c.a", metavar="ARCHIVE"
    )
    words.add_argument("--only", default="", metavar="WORD")
    words.add_argument("names", nargs="*", default=[COMPILER, NODE_MODULES], metavar="FILE or FOLDER")
    words = words.parse_args()
    with tempfile.TemporaryDirectory() as path:
        folder = pathlib.Path(path)
        drivers = drivers_in(folder, words)
        for name in words.names:
            file = file_of(name, folder)
            if measures := measure(drivers, file, words.rounds, words.passes):
                print_table(name, file, measures)


if __name__ == "__main__":
    sys.exit(main())
