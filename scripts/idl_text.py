"""Where an interface text departs, for a person: the line and column of an octet, the token there, and which tokens the
grammar would take in its place."""
import re
from functools import lru_cache

# The grammar of docs/PROTOCOL.md. `[..]` may be left out, `{..}` may be repeated, `num`, `str`, `UUID` and `name` are classes.
GRAMMAR = """
file   = "[" iattr {"," iattr} "]" "interface" name "{" {decl} "}" end
iattr  = "uuid" "(" UUID ")" | "version" "(" num ["." num] ")" | "pointer_default" "(" pk ")" | "endpoint" "(" str {"," str} ")"
pk     = "ref" | "unique" | "ptr"
decl   = "const" base name "=" ["-"] num ";" | "typedef" [attrs] spec dtor {"," dtor} ";" | [attrs] spec ( ";" | name "(" ["void" | param {"," param}] ")" ";" )
param  = [attrs] spec dtor
attrs  = "[" attr {"," attr} "]"
attr   = "in" | "out" | pk | "string" | "idempotent" | "maybe" | "context_handle" | "context_handle_serialize" | "context_handle_noserialize" | ("size_is" | "max_is" | "length_is") "(" (["*"] name | num) ")" | "switch_is" "(" ["*"] name ")" | "switch_type" "(" spec ")" | "range" "(" ["-"] num "," ["-"] num ")"
spec   = base | name | "void" | "handle_t" | "error_status_t" | struct | union | enum
base   = "boolean" | "byte" | ["unsigned"] "char" | ["unsigned"] ("small" | "short" | "long" | "hyper") ["int"]
struct = "struct" ( name ["{" member {member} "}"] | "{" member {member} "}" )
member = [attrs] spec dtor {"," dtor} ";"
union  = "union" [name] ["switch" "(" spec name ")" [name]] "{" arm {arm} "}"
arm    = label {label} (member | ";")
label  = "case" (["-"] num | name) ":" | "default" ":"
enum   = "enum" [name] "{" name {"," name} "}"
dtor   = {"*"} name ["[" [num | name | "*"] "]"]
"""
CLASSES = {"name": "a name", "num": "a number", "str": "a string", "UUID": "a UUID", "end": "the end"}
UUID = r"[0-9A-Fa-f]{8}-(?:[0-9A-Fa-f]{4}-){3}[0-9A-Fa-f]{12}"
LEXEME = re.compile(
    r'(?P<gap>[ \t\r\n]+|/\*.*?\*/|//[^\n]*)|(?P<name>[A-Za-z_]\w*)|(?P<num>0x[0-9A-Fa-f]+|[0-9]+)|(?P<str>"[ !#-\[\]-~]*")'
    r"|(?P<mark>[,;:*=.\[\](){}-])",
    re.S | re.A,
)
RESERVED = frozenset(re.findall(r'"([a-z_]+)"', GRAMMAR)) - {"range"}


def tokens(text, upto=None):
    """The tokens of a text whose first octet stands below `upto`: each its class, its spelling and its octet. The first that
    is none has the class `bad`."""
    found, at, upto = [], 0, len(text) if upto is None else upto
    while at < min(upto, len(text)):
        is_uuid = [it[1] for it in found[-2:]] == ["uuid", "("]
        match = is_uuid and re.compile(UUID).match(text, at) or LEXEME.match(text, at)
        if not match:
            return [*found, ("bad", text[at:at + 1], at)]
        kind = match.lastgroup or "UUID"
        if kind == "name" and match[0] in RESERVED:
            kind = "word"
        if kind != "gap":
            found.append((kind, match[0], at))
        at = match.end()
    return found


def parts(words):
    """Reads alternatives of the grammar's notation up to a closing bracket."""
    choices, row = [], []
    while words and words[0] not in (")", "]", "}"):
        word = words.pop(0)
        if word == "|":
            choices.append(tuple(row))
            row = []
        elif word in "([{":
            row.append((word, parts(words)))
            words.pop(0)
        else:
            row.append(word)
    return (*choices, tuple(row))


@lru_cache
def grammar():
    rules = {}
    for line in GRAMMAR.strip().split("\n"):
        name, _, body = line.partition("=")
        rules[name.strip()] = parts(re.findall(r'"[^"]*"|\w+|[][(){}|]', body))
    return rules


def opened(stack):
    """Each way to go on from a stack of what is still to come: the stacks that begin with a terminal."""
    done, todo = set(), [stack]
    while todo:
        stack = todo.pop()
        if stack in done:
            continue
        done.add(stack)
        if not stack:
            continue
        first, rest = stack[0], stack[1:]
        if isinstance(first, tuple):
            bracket, choices = first
            again = (first,) if bracket == "{" else ()
            todo += [(*it, *again, *rest) for it in choices]
            todo += [rest] if bracket != "(" else []
        elif first in grammar():
            todo += [(*it, *rest) for it in grammar()[first]]
        else:
            yield stack


def fits(wanted, token):
    kind, spelling, _ = token
    if wanted in CLASSES:
        return kind == wanted
    return spelling == wanted.strip('"')


def expected(text, at):
    """What the grammar takes in place of the token at this octet."""
    stacks = {it for choice in grammar()["file"] for it in opened(choice)}
    for token in tokens(text, at):
        stacks = {it for one in stacks if fits(one[0], token) for it in opened(one[1:])}
    return sorted({CLASSES.get(it[0], it[0]) for it in stacks})


def place(text, at):
    """The line and the column of an octet, from 1, and the line itself."""
    before = text[:at]
    begin = before.rfind("\n") + 1
    return before.count("\n") + 1, at - begin + 1, text[begin:].split("\n", 1)[0]


def plain(text, most=40):
    """A text as a terminal may show it: printable ASCII, and not too long."""
    said = re.sub(r"[^ -~]", "?", text.replace("\t", " "))
    return said if len(said) <= most else said[:most - 3] + "..."


def shown(text, at):
    """The lines that show an octet of a text."""
    line, column, whole = place(text, at)
    first = max(0, column - 60)
    found = [it for it in tokens(text, at + 1) if it[2] == at]
    token = f"at `{plain(found[0][1])}`" if found else "at the end" if at >= len(text) else f"at `{plain(text[at])}`"
    return f"line {line}, column {column}, {token}", [plain(whole[first:first + 100], 100), " " * (column - 1 - first) + "^"]
