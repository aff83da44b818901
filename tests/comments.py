"""Parts a source file into its code and its comments."""
import io
import re
import tokenize

# Texts and characters are matched too, since a comment's sign in one begins no comment.
TEXTS = r'''r(#*)".*?"\1|"(?:\\.|[^"\\])*"|'(?:\\.[^'\n]*|[^'\\\n])\''''
C_LIKE = re.compile(r"//[^\n]*|/\*.*?\*/|" + TEXTS, re.DOTALL)
HASH = re.compile(r"^[ \t]*#[^\n]*", re.MULTILINE)
ANTT = re.compile(r'--[^\n]*|\{-.*?-\}|"(?:\\.|[^"\\\n])*"', re.DOTALL)
OPENS = ("//", "/*", "--", "{-")
# The sign at the front of a comment's line.
SIGN = re.compile(r"^[ \t]*(?://[/!]?|--|#|/\*+|\{-|\*+/?)?", re.MULTILINE)
# A text of Python right behind one of these is a docstring.
BETWEEN = {tokenize.NEWLINE, tokenize.INDENT, tokenize.DEDENT, tokenize.NL, tokenize.COMMENT, tokenize.ENCODING}


def of_signs(pattern, text):
    return [match.span() for match in pattern.finditer(text) if match[0].startswith(OPENS)]


def of_python(text):
    """Where comments and docstrings are."""
    starts = [0]
    for line in text.splitlines(keepends=True):
        starts.append(starts[-1] + len(line))
    found, before = [], tokenize.ENCODING
    for token in tokenize.generate_tokens(io.StringIO(text).readline):
        if token.type == tokenize.COMMENT or (token.type == tokenize.STRING and before in BETWEEN):
            found.append(tuple(starts[line - 1] + column for line, column in (token.start, token.end)))
        before = token.type
    return found


FINDERS = {
    **dict.fromkeys((".rt", ".rs", ".c", ".h", ".hpp", ".cpp", ".java"), lambda text: of_signs(C_LIKE, text)),
    ".antt": lambda text: of_signs(ANTT, text),
    ".py": of_python,
    **dict.fromkeys((".sh", ".toml", ""), lambda text: [match.span() for match in HASH.finditer(text)]),
}


def joined(text, spans):
    """The spans, those as one that have only the end of a line between them."""
    runs = []
    for begin, end in spans:
        if runs and re.fullmatch(r"[ \t]*\n[ \t]*", text[runs[-1][1]:begin]):
            runs[-1][1] = end
        else:
            runs.append([begin, end])
    return runs


def parted(suffix, text):
    """The code of a file with this suffix, and its comments without their signs, each with its first line."""
    code, comments, at = [], [], 0
    for begin, end in joined(text, FINDERS[suffix](text)):
        code.append(text[at:begin])
        comments.append((text.count("\n", 0, begin) + 1, SIGN.sub("", text[begin:end])))
        at = end
    return " ".join([*code, text[at:]]), comments
