#!/usr/bin/env python3
"""Makes the files by which editors colour the language, from the words that the compiler's own sources have.

Usage: make.py [--check]

It reads the reserved words and the marks of the lexer, the types of the parser and the names of the built-in calls, and
writes lam.tmLanguage.json, lam-world.tmLanguage.json, package.json and language-configuration.json for VS Code and its
likes, syntax/lam.vim, syntax/lamworld.vim and ftdetect/lam.vim for Vim and Neovim, and lam-mode.el for Emacs. With
--check it writes nothing: it says which file is not as it would be made, looks at the files that start the language
server, and colours each program of the examples by the TextMate file, in which each word, number, text, mark and comment
is to be coloured by exactly one rule, and a name by none. The status is 1 where something is wrong.
"""
import json
import pathlib
import re
import sys

try:
    import tomllib
except ImportError:     # before Python 3.11 the file for Helix is not read
    tomllib = None

HERE = pathlib.Path(__file__).resolve().parent
sys.path.insert(0, str(HERE.parent))
from lam_source import last_catch
TOP = HERE.parent.parent
BROKEN = TOP / "examples" / "terminal"      # its programs are full of mistakes

# What the reserved words that are no types are for. A new one has to be put somewhere here.
NAMED = {"fn": "entity.name.function.lam", "class": "entity.name.type.class.lam"}
DECLARING = {"let", *NAMED}
CONTROLLING = {"if", "else", "while", "return", "throw", "sync", "region", "catch"}
MAKING = {"new", "spawn"}
CONSTANTS = {"true", "false", "null"}
BRACKETS = set("{}()[]")
SEPARATORS = set(",;:.")

NAME = r"[^\W\d]\w*"


class Wrong(Exception):
    """Something that is not as it should be."""


# ---- the words, from the sources

def bodies_of(path, head):
    """Returns the texts of the functions of a source file whose names fit, each from its head to the brace that ends it."""
    text = (TOP / "crates" / path).read_text(encoding="utf-8")
    found = re.finditer(rf"^( *)(?:pub )?fn {head}[(<].*?^\1}}$", text, re.MULTILINE | re.DOTALL)
    bodies = "\n".join(body.group(0) for body in found)
    if not bodies:
        raise Wrong(f"{path} has no function {head}")
    return bodies


def found_in(path, head, pattern):
    """Returns what a pattern finds in a function of a source file, or in several that begin alike; it is something."""
    found = re.findall(pattern, bodies_of(path, head))
    if not found:
        raise Wrong(f"{head} of {path} has nothing like {pattern}")
    return found


def read_marks():
    """Returns the marks, the longest first, and what begins a comment."""
    start = "lam_lexer/src/start.rt"
    ones = [mark for mark, _ in found_in(start, "one_mark", r"'(.)' => Start::Mark\(TokenKind::(\w+)\)")]
    pair = r"c == '(.)' && d == '(.)' \{\s*Start::(\w+)"
    twos = found_in(start, "two_marks", pair)
    comments = [c + d for c, d, what in twos if what == "Comment"]
    if len(comments) != 1:
        raise Wrong("not one mark begins a comment")
    return [c + d for c, d, what in twos if what == "LongMark"] + ones, comments[0]


def read_words():
    """Returns the words of the language by what they are."""
    kinds = found_in("lam_lexer/src/words.rt", r"of(?:_\w)+", r'"(\w+)" => Some\(TokenKind::(\w+)\)')
    typed = set(found_in("lam_parser_parts/src/types.rt", "type_kind", r"TokenKind::(\w+) => Ok\(TypeKind::\1\)"))
    reserved = [word for word, _ in kinds]
    types = [word for word, kind in kinds if kind in typed]
    builtins = found_in("lam_builtins/src/rows.rt", "row", r'Builtin::\w+ => called\(\s*"(\w+)"')
    escapes = found_in("lam_lexer/src/text.rt", "letter", r"'(\\?.)' => Some")
    marks, comment = read_marks()
    grouped = DECLARING | CONTROLLING | MAKING | CONSTANTS
    if set(reserved) != grouped | set(types) or grouped & set(types):
        raise Wrong(f"in no group, or in two: {' '.join(sorted(set(reserved) ^ (grouped | set(types))))}")
    return {
        "reserved": reserved,
        "declaring": [word for word in reserved if word in DECLARING],
        "controlling": [word for word in reserved if word in CONTROLLING],
        "making": [word for word in reserved if word in MAKING],
        "constants": [word for word in reserved if word in CONSTANTS],
        "types": types,
        "builtins": builtins,
        "escapes": [escape[-1] for escape in escapes],
        "brackets": [mark for mark in marks if mark in BRACKETS],
        "separators": [mark for mark in marks if mark in SEPARATORS],
        "operators": [mark for mark in marks if mark not in BRACKETS | SEPARATORS],
        "comment": comment,
    }


# ---- the TextMate form

def one_of(words):
    """Returns the pattern of one of these words as a whole word."""
    return rf"\b(?:{'|'.join(words)})\b"


def mark_of(marks):
    """Returns the pattern of one of these marks."""
    return "|".join(re.escape(mark) for mark in marks)


def escape_set(words):
    """Returns the inside of the brackets of a pattern for the letters that stand behind a backslash."""
    return "".join(re.escape(letter) for letter in words["escapes"])


def text_rule(words):
    """Returns the rule of a text between quotes, which stands on one line."""
    return {
        "name": "string.quoted.double.lam",
        "begin": '"',
        "end": '"|$',
        "patterns": [
            {"name": "constant.character.escape.lam", "match": rf"\\(?:[{escape_set(words)}]|x[0-9A-Fa-f]{{2}})"},
            {"name": "invalid.illegal.escape.lam", "match": r"\\."},
        ],
    }


def rules(words):
    """Returns the rules of the TextMate file in order; no two of them match at one place."""
    return [
        {"name": "comment.line.double-slash.lam", "match": f"{words['comment']}.*$"},
        text_rule(words),
        {"name": "constant.numeric.integer.lam", "match": r"(?<!\w)[0-9]+(?!\w)"},
        *(declared_rule(word, name) for word, name in NAMED.items()),
        {"name": "storage.type.declaration.lam", "match": declaring_pattern(words)},
        {"name": "keyword.control.lam", "match": one_of(words["controlling"])},
        {"name": "keyword.operator.new.lam", "match": one_of(words["making"])},
        {"name": "constant.language.lam", "match": one_of(words["constants"])},
        {"name": "support.type.lam", "match": one_of(words["types"])},
        {"name": "support.function.lam", "match": rf"{one_of(words['builtins'])}(?=\s*\()"},
        {"name": "keyword.operator.lam", "match": operator_pattern(words)},
        {"name": "punctuation.section.lam", "match": mark_of(words["brackets"])},
        {"name": "punctuation.separator.lam", "match": mark_of(words["separators"])},
    ]


def declared_rule(word, name):
    """Returns the rule of a reserved word and the name that it declares."""
    captures = {"1": {"name": "storage.type.declaration.lam"}, "2": {"name": name}}
    return {"match": rf"\b({word})\s+({NAME})", "captures": captures}


def declaring_pattern(words):
    """Returns the pattern of a reserved word that declares, where no name follows that has a rule with it."""
    return rf"{one_of(words['declaring'])}(?!(?:{'|'.join(rf'(?<={word})' for word in NAMED)})\s+{NAME})"


def operator_pattern(words):
    """Returns the pattern of an operator that begins no comment."""
    return rf"(?!{words['comment']})(?:{mark_of(words['operators'])})"


def grammar(words):
    """Returns the TextMate file as an object."""
    return {
        "name": "lam",
        "scopeName": "source.lam",
        "fileTypes": ["lam"],
        "patterns": rules(words),
    }


def package(_words):
    """Returns the description by which VS Code takes this folder as an extension."""
    return {
        "name": "lam",
        "displayName": "lam",
        "description": "Colours and a language server for lam",
        "version": "1.2.0",
        "engines": {"vscode": "^1.40.0"},
        "main": "./extension.js",
        "activationEvents": ["onLanguage:lam", "onLanguage:lam-world", "onLanguage:lam-short"],
        "contributes": {
            "languages": [
                {"id": "lam", "extensions": [".lam"], "configuration": "./language-configuration.json"},
                {"id": "lam-world", "extensions": [".world"]},
                {"id": "lam-short", "extensions": [".short"]},
            ],
            "grammars": [
                {"language": "lam", "scopeName": "source.lam", "path": "./lam.tmLanguage.json"},
                {"language": "lam-world", "scopeName": "source.lam-world", "path": "./lam-world.tmLanguage.json"},
            ],
        },
    }


def world_grammar(_words):
    """Returns the TextMate file of world documents, which are JSON."""
    return {"name": "lam world", "scopeName": "source.lam-world", "fileTypes": ["world"],
            "patterns": [{"include": "source.json"}]}


def configuration(words):
    """Returns what VS Code knows of comments and brackets."""
    pairs = [["{", "}"], ["(", ")"], ["[", "]"]]
    return {
        "comments": {"lineComment": words["comment"]},
        "brackets": pairs,
        "autoClosingPairs": [{"open": o, "close": c} for o, c in pairs]
        + [{"open": '"', "close": '"', "notIn": ["string", "comment"]}],
    }


# ---- Vim's form

def vim_set(words):
    """Returns the patterns of the escapes for Vim."""
    return "".join("\\\\" if letter == "\\" else letter for letter in words["escapes"])


def vim_syntax(words):
    """Returns Vim's syntax file."""
    builtins = r"\|".join(words["builtins"])
    operators = r"\|".join(re.sub(r"([*.\[\]~^$/\\])", r"\\\1", mark) for mark in words["operators"])
    lines = [
        '" Colours for the language of lam. Made by tools/editor/make.py.',
        'if exists("b:current_syntax")',
        "  finish",
        "endif",
        f"syn keyword lamDeclaration {' '.join(words['declaring'])}",
        f"syn keyword lamControl {' '.join(words['controlling'])}",
        f"syn keyword lamMaking {' '.join(words['making'])}",
        f"syn keyword lamConstant {' '.join(words['constants'])}",
        f"syn keyword lamType {' '.join(words['types'])}",
        rf"syn match lamBuiltin /\<\%({builtins}\)\>\ze\s*(/",
        r"syn match lamFunction /\%(\<fn\s\+\)\@<=\h\w*/",
        r"syn match lamClass /\%(\<class\s\+\)\@<=\h\w*/",
        r"syn match lamNumber /\<\d\+\>/",
        rf"syn match lamOperator /{operators}/",
        rf"syn match lamBadEscape /\\./ contained",
        rf"syn match lamEscape /\\\%([{vim_set(words)}]\|x\x\x\)/ contained",
        r'syn region lamText start=/"/ skip=/\\./ end=/"/ oneline contains=lamEscape,lamBadEscape',
        rf"syn match lamComment /{words['comment'].replace('/', chr(92) + '/')}.*$/ contains=@Spell",
    ]
    links = {
        "Declaration": "Keyword", "Control": "Statement", "Making": "Operator", "Constant": "Constant",
        "Type": "Type", "Builtin": "Function", "Function": "Identifier", "Class": "Structure", "Number": "Number",
        "Operator": "Operator", "BadEscape": "Error", "Escape": "SpecialChar", "Text": "String", "Comment": "Comment",
    }
    lines += [f"hi def link lam{group} {link}" for group, link in links.items()]
    lines += ['let b:current_syntax = "lam"']
    return "\n".join(lines) + "\n"


def vim_detect(_words):
    """Returns the file by which Vim knows a program by its name."""
    return ("autocmd BufRead,BufNewFile *.lam setfiletype lam | setlocal commentstring=//\\ %s\n"
            "autocmd BufRead,BufNewFile *.world setfiletype lamworld\n"
            "autocmd BufRead,BufNewFile *.short setfiletype lamshort | setlocal commentstring=#\\ %s\n")


def vim_world(_words):
    """Returns Vim's syntax file of world documents, which are JSON."""
    return '" Colours for world documents of lam. Made by tools/editor/make.py.\nruntime! syntax/json.vim\n'


# ---- Emacs's form

def lisp_list(words):
    """Returns words as a list of Emacs."""
    return "'(" + " ".join(f'"{word}"' for word in words) + ")"


def emacs_mode(words):
    """Returns the mode of Emacs, which also tells Eglot of the server."""
    keywords = words["declaring"] + words["controlling"] + words["making"]
    return EMACS.format(
        keywords=lisp_list(keywords), types=lisp_list(words["types"]), constants=lisp_list(words["constants"]),
        builtins=lisp_list(words["builtins"]))


EMACS = r""";;; lam-mode.el --- Colours and a language server for lam  -*- lexical-binding: t; -*-
;; Made by tools/editor/make.py.

;;; Code:

(defconst lam-folder (file-name-directory (file-truename (or load-file-name buffer-file-name)))
  "The folder of this file, with which the server's is known.")

(defvar lam-mode-syntax-table
  (let ((table (make-syntax-table)))
    (modify-syntax-entry ?_ "w" table)
    (modify-syntax-entry ?/ ". 12" table)
    (modify-syntax-entry ?\n ">" table)
    (modify-syntax-entry ?\" "\"" table)
    (modify-syntax-entry ?\\ "\\" table)
    table))

(defvar lam-font-lock-keywords
  `((,(regexp-opt {keywords} 'words) . font-lock-keyword-face)
    (,(regexp-opt {types} 'words) . font-lock-type-face)
    (,(regexp-opt {constants} 'words) . font-lock-constant-face)
    (,(concat (regexp-opt {builtins} 'words) "[ \t]*(") 1 font-lock-builtin-face)
    ("\\_<fn[ \t]+\\(\\w+\\)" 1 font-lock-function-name-face)
    ("\\_<class[ \t]+\\(\\w+\\)" 1 font-lock-type-face)))

(defun lam-indent-line ()
  "Indents a line by two blanks for each bracket that is open."
  (interactive)
  (let ((depth (save-excursion (back-to-indentation)
                               (- (car (syntax-ppss)) (if (looking-at "[])}}]") 1 0)))))
    (if (<= (current-column) (current-indentation))
        (indent-line-to (* 2 (max depth 0)))
      (save-excursion (indent-line-to (* 2 (max depth 0)))))))

;;;###autoload
(define-derived-mode lam-mode prog-mode "lam"
  "A mode for programs of lam."
  (setq-local comment-start "// ")
  (setq-local comment-end "")
  (setq-local indent-line-function #'lam-indent-line)
  (setq-local font-lock-defaults '(lam-font-lock-keywords)))

;;;###autoload
(define-derived-mode lam-world-mode prog-mode "lam world"
  "A mode for world documents of lam, and for their short texts.")

;;;###autoload
(progn
  (add-to-list 'auto-mode-alist '("\\.lam\\'" . lam-mode))
  (add-to-list 'auto-mode-alist '("\\.\\(world\\|short\\)\\'" . lam-world-mode)))

(defvar eglot-server-programs)
(with-eval-after-load 'eglot
  (add-to-list 'eglot-server-programs
               (list '(lam-mode lam-world-mode) (expand-file-name "../lam_server.py" lam-folder))))

(provide 'lam-mode)
;;; lam-mode.el ends here
"""


def as_json(value):
    """Returns an object as the text of a file."""
    return json.dumps(value, indent=2) + "\n"


def made(words):
    """Returns the texts of all files by their names."""
    return {
        "lam.tmLanguage.json": as_json(grammar(words)),
        "package.json": as_json(package(words)),
        "lam-world.tmLanguage.json": as_json(world_grammar(words)),
        "language-configuration.json": as_json(configuration(words)),
        "syntax/lam.vim": vim_syntax(words),
        "syntax/lamworld.vim": vim_world(words),
        "ftdetect/lam.vim": vim_detect(words),
        "lam-mode.el": emacs_mode(words),
    }


# ---- the check

def colours(line, patterns):
    """Yields the pieces of a line that the rules of a TextMate file colour: from, to, the rules that match there.

    As an editor does, it takes the first place at which a rule matches, and of those that match there the first.
    """
    place = 0
    while place <= len(line):
        matches = [(rule, re.compile(rule.get("match") or rule["begin"]).search(line, place)) for rule in patterns]
        matches = [(rule, match) for rule, match in matches if match and match.end() > match.start()]
        if not matches:
            return
        start = min(match.start() for _, match in matches)
        here = [(rule, match) for rule, match in matches if match.start() == start]
        rule, match = here[0]
        for number, capture in rule.get("captures", {}).items():
            begin, end = match.span(int(number))
            yield begin, end, [capture["name"]] * len(here)
        if "captures" not in rule:
            end = match.end() if "match" in rule else end_of_text(line, match.end(), rule)
            yield start, end, [one.get("name") for one, _ in here]
        place = end


def end_of_text(line, place, rule):
    """Returns where a text between quotes ends; inside it only what its own rules match is passed over."""
    while True:
        end = re.compile(rule["end"]).search(line, place)
        inside = [re.compile(one["match"]).search(line, place) for one in rule["patterns"]]
        inside = [match for match in inside if match and match.start() <= end.start()]
        if not inside or end.start() < min(match.start() for match in inside):
            return end.end()
        first = min(inside, key=lambda match: match.start())
        place = first.end()


def tokens(line, words):
    """Yields the pieces of a line as the language has them: from, to, and the rule that is to colour it, if any."""
    marks = sorted(words["operators"] + words["brackets"] + words["separators"], key=len, reverse=True)
    pieces = re.compile(
        rf'(?P<comment>{words["comment"]}.*)|(?P<text>"(?:[^"\\]|\\.)*")|(?P<number>[0-9]+)|(?P<name>{NAME})'
        rf"|(?P<mark>{mark_of(marks)})|(?P<space>\s+)"
    )
    place, before = 0, ""
    while place < len(line):
        piece = pieces.match(line, place)
        if not piece:
            raise Wrong(f"no token of the language: {line[place:]}")
        if piece.lastgroup != "space":
            yield place, piece.end(), wanted(piece, before, line[piece.end():], words)
            before = piece.group()
        place = piece.end()


def wanted(piece, before, after, words):
    """Returns the rule that is to colour a token, by what it is and what stands round it."""
    token = piece.group()
    if piece.lastgroup != "name":
        group = {"comment": "comment.line.double-slash", "text": "string.quoted.double",
                 "number": "constant.numeric.integer", "mark": None}[piece.lastgroup]
        group = group or ("punctuation.section" if token in words["brackets"] else
                          "punctuation.separator" if token in words["separators"] else "keyword.operator")
        return f"{group}.lam"
    groups = {"declaring": "storage.type.declaration", "controlling": "keyword.control",
              "making": "keyword.operator.new", "constants": "constant.language", "types": "support.type"}
    for group, rule in groups.items():
        if token in words[group]:
            return f"{rule}.lam"
    if before in NAMED:
        return NAMED[before]
    if token in words["builtins"] and after.lstrip().startswith("("):
        return "support.function.lam"
    return None


def check_line(line, words, patterns):
    """Checks the colours of one line; returns how many pieces of it are coloured."""
    found = {start: (end, names) for start, end, names in colours(line, patterns)}
    count = 0
    for start, end, rule in tokens(line, words):
        got = found.pop(start, None)
        if got != ((end, [rule]) if rule else None):
            raise Wrong(f"{line[start:end]!r} is to be coloured by {rule} alone, and is by {got and got[1]}: {line}")
        count += rule is not None
    if found:
        raise Wrong(f"coloured, and no token: {line}")
    return count


def check_examples(words):
    """Checks the colours of each program of the examples; returns how many there are, and how many pieces."""
    patterns = json.loads((HERE / "lam.tmLanguage.json").read_text(encoding="utf-8"))["patterns"]
    programs = sorted(it for it in (TOP / "examples").rglob("*.lam") if BROKEN not in it.parents)
    if not programs:
        raise Wrong("there are no examples")
    count = 0
    for program in programs:
        for number, line in enumerate(program.read_text(encoding="utf-8").split("\n"), 1):
            try:
                count += check_line(line, words, patterns)
            except Wrong as wrong:
                raise Wrong(f"{program.relative_to(TOP)} line {number}: {wrong}") from wrong
    return len(programs), count


def check_servers():
    """Checks that each editor's file that starts the server names it, and that it is there."""
    if not (HERE.parent / "lam_server.py").exists():
        raise Wrong("there is no tools/lam_server.py")
    for name in ("extension.js", "ftplugin/lam.lua", "helix/languages.toml", "lam-mode.el"):
        if "lam_server.py" not in (HERE / name).read_text(encoding="utf-8"):
            raise Wrong(f"{name} does not start lam_server.py")
    if tomllib:
        tomllib.loads((HERE / "helix" / "languages.toml").read_text(encoding="utf-8"))


def check(words):
    """Says whether the files are as made and colour the examples as they should."""
    for name, text in made(words).items():
        path = HERE / name
        if not path.exists() or path.read_text(encoding="utf-8") != text:
            raise Wrong(f"{name} is not as made: run tools/editor/make.py")
    check_servers()
    programs, pieces = check_examples(words)
    print(f"as made; {programs} programs, {pieces} pieces, each coloured by one rule")


def write(words):
    """Writes the files."""
    for name, text in made(words).items():
        path = HERE / name
        path.parent.mkdir(exist_ok=True)
        path.write_text(text, encoding="utf-8")


def main():
    """Makes the files, or checks them."""
    if sys.argv[1:] not in ([], ["--check"]):
        print("usage: make.py [--check]", file=sys.stderr)
        return 2
    try:
        words = read_words()
        (check if sys.argv[1:] else write)(words)
    except Wrong as wrong:
        print(f"make.py: {wrong}", file=sys.stderr)
        return 1
    return 0


if __name__ == "__main__":
    last_catch.run(main)
