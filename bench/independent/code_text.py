"""The tokens and the grammar of the C subset of docs/FORMATS.md. The grammar is tried by Earley's method: after each token the set of all
rules that may stand there, so the first token with which no file can go on is the one that leaves none."""

import re

LEAST, GREATEST = -(2**63), 2**63 - 1
TYPES = {f"int{bits}_t": (-(2 ** (bits - 1)), 2 ** (bits - 1) - 1) for bits in (8, 16, 32, 64)}
TYPES |= {f"uint{bits}_t": (0, 2**bits - 1) for bits in (8, 16, 32)}
KEYWORDS = set(
    "auto break case char const continue default do double else enum extern float for goto if inline int long register restrict return "
    "short signed sizeof static struct switch typedef union unsigned void volatile while _Bool _Complex _Imaginary".split()
)
TOKEN = re.compile(rb"[A-Za-z_][A-Za-z0-9_]*|[0-9]+|->|==|!=|<=|>=|&&|\|\||[(){}\[\];,*=?:\-+/%<>!&.]")
FIRST_LINE = b"#include <stdint.h>"

# Words in lower case are rules, those in upper case kinds of tokens, and all else stands for itself behind a quote.
RULES = """
file: pures structs procs
pures: | pures pure
structs: struct | structs struct
procs: proc | procs proc
pure: 'static 'int64_t NAME '( numbers ') '{ 'return expr '; '}
numbers: 'int64_t NAME | numbers ', 'int64_t NAME
struct: 'struct NAME '{ fields '} ';
fields: field | fields field
field: TYPE NAME '; | TYPE NAME '[ LITERAL '] '; | 'struct NAME NAME ';
proc: void | 'static void
void: 'void NAME '( 'struct NAME '* 's params ') block
params: | params ', TYPE NAME
block: '{ stmts '}
stmts: | stmts stmt
stmt: 's '-> NAME '= '( TYPE ') expr '; | 's '-> NAME '[ expr '] '= '( TYPE ') expr '; \
    | 'if cond block | 'if cond block 'else block | NAME '( target values ') ';
target: 's | '& 's '-> NAME
values: | values ', '( TYPE ') expr
expr: 'INT64_C '( LITERAL ') | '( '- expr ') | '( 'int64_t ') leaf | '( expr OPERATOR expr ') \
    | '( cond '? expr ': expr ') | NAME '( exprs ')
exprs: expr | exprs ', expr
leaf: NAME | 's '-> NAME | 's '-> NAME '. NAME | 's '-> NAME '[ expr ']
cond: '( expr RELATION expr ') | '( cond '&& cond ') | '( cond '__or__ cond ') | '( '! cond ')
"""
GRAMMAR = {}
for row in RULES.strip().splitlines():
    head, _, rest = row.partition(":")
    GRAMMAR[head] = [[it.replace("__or__", "||") for it in body.split()] for body in rest.split("|")]


def is_name(text):
    """Whether a token may be the name of something."""
    return bool(re.fullmatch(r"[a-z][A-Za-z0-9_]*", text)) and not text.endswith("_t") and text not in KEYWORDS and text != "s"


FITS = {
    "NAME": is_name,
    "TYPE": TYPES.__contains__,
    "LITERAL": lambda text: bool(re.fullmatch(r"0|[1-9][0-9]*", text)) and int(text) <= GREATEST,
    "OPERATOR": lambda text: text in ("+", "-", "*", "/", "%"),
    "RELATION": lambda text: text in ("==", "!=", "<", "<=", ">", ">="),
}


def fits(symbol, text):
    """Whether a token is one that a symbol of a rule stands for."""
    return text == symbol[1:] if symbol.startswith("'") else FITS[symbol](text)


def tokens_of(data):
    """The text and the line of each token after the first line. A byte that begins none, and a comment without its end, is the last."""
    found, at, line = [], len(data.partition(b"\n")[0]), 1
    while at < len(data):
        blank = data[at : at + 1] in b" \t\r\n"
        is_comment = data.startswith(b"/*", at)
        end = data.find(b"*/", at + 2) if is_comment else at
        token = TOKEN.match(data, at)
        if end < 0 or not (blank or is_comment or token):
            return [*found, ("no token", line)]
        if token and not is_comment:
            found.append((token.group().decode(), line))
        stop = at + 1 if blank else end + 2 if is_comment else token.end()
        line += data.count(b"\n", at, stop)
        at = stop
    return found


# An item is the head of a rule, the number of its body, how many symbols of that are read, and the place where they begin.
def next_symbol(item):
    """The symbol that is read next, or None at the end of the body."""
    head, body, dot, _ = item
    symbols = GRAMMAR[head][body]
    return symbols[dot] if dot < len(symbols) else None


def moved(item):
    """The item after its next symbol."""
    head, body, dot, start = item
    return (head, body, dot + 1, start)


def completed(sets, items):
    """All items that may stand where these do."""
    place, todo = len(sets), list(items)
    found = set(items)
    for item in todo:
        symbol = next_symbol(item)
        if symbol is None:
            around = sets[item[3]] if item[3] < place else list(found)
            new = [moved(it) for it in around if next_symbol(it) == item[0]]
        elif symbol in GRAMMAR:
            new = [(symbol, body, 0, place) for body in range(len(GRAMMAR[symbol]))]
            new += [moved(item)] if [] in GRAMMAR[symbol] else []
        else:
            new = []
        new = [it for it in dict.fromkeys(new) if it not in found]
        found.update(new)
        todo += new
    return found


def first_stray(tokens):
    """The number of the first token with which no file can go on, that behind the last where the text ends too soon, or None."""
    sets = [completed([], [("file", 0, 0, 0)])]
    for number, (text, _) in enumerate(tokens):
        ahead = [it for it in sets[-1] if next_symbol(it) and next_symbol(it) not in GRAMMAR]
        kept = [moved(it) for it in ahead if fits(next_symbol(it), text)]
        if not kept:
            return number
        sets.append(completed(sets, kept))
    return None if ("file", 0, 3, 0) in sets[-1] else len(tokens)


def last_line(data):
    """Lines are counted by their ends; an empty text has one."""
    return max(1, data.count(b"\n") + (not data.endswith(b"\n")))
