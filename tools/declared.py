"""What a script declares: its statements, its tables and its sink, as the companions of the program need them."""
import os
import re
import signal
import sys

TOKEN = re.compile(r"""
    (?P<space>\s+|--[^\n]*|/\*.*?\*/)
  | (?P<name>`(?:[^`]|``)+`)
  | (?P<text>'(?:[^']|'')*')
  | (?P<word>\w+)
  | (?P<mark>.)
""", re.X | re.S)


class Unread(Exception):
    """The script can't be read so far as its tables are needed."""


class Token:
    def __init__(self, kind, text, at):
        self.kind, self.text, self.at = kind, text, at

    def name(self):
        """The name that the token is: a word, or what stands between backticks."""
        return self.text[1:-1].replace('``', '`') if self.kind == 'name' else self.text

    def is_word(self, word):
        return self.kind == 'word' and self.text.upper() == word


class Table:
    def __init__(self, name):
        self.name, self.columns, self.key, self.mode = name, [], None, 'append'

    def key_columns(self):
        """The columns of the key, in the order of the table's."""
        return [name for name, _ in self.columns if name in (self.key or [])]


def read_script(path, errors='strict'):
    try:
        with open(path, encoding='utf-8', errors=errors, newline='') as file:
            return file.read()
    except UnicodeDecodeError as fault:
        raise Unread(f'{path} is no text in UTF-8') from fault


def end_by(name, work):
    """Does a companion's work and ends with its status, or with status 2 and one line on standard error."""
    signal.signal(signal.SIGINT, signal.SIG_DFL)
    try:
        status = worked(work)
    except BrokenPipeError:
        status = complain(f'{name}: nobody reads the output any more')
    except OSError as fault:
        status = complain(f'{name}: {fault.filename or "the output"}: {fault.strerror}')
    except Unread as fault:
        status = complain(f'{name}: {fault}')
    # What is left in the buffer has no reader, and Python would complain of it once more.
    os._exit(status)


def worked(work):
    if sys.stdin is None or sys.stdout is None:
        raise Unread('standard input or standard output is closed')
    try:
        return work()
    finally:
        sys.stdout.flush()


def complain(line):
    try:
        if sys.stderr is not None:
            print(line, file=sys.stderr, flush=True)
    except OSError:
        pass  # standard error is closed or full: the status tells it
    return 2


def statements(text):
    """The statements of a script, each the list of its tokens; the last is what stands behind the last semicolon."""
    all_of_them, one = [], []
    for match in TOKEN.finditer(text):
        if match.lastgroup == 'space':
            continue
        if match.group() == ';':
            all_of_them.append(one)
            one = []
        else:
            one.append(Token(match.lastgroup, match.group(), match.start()))
    return all_of_them + [one]


def in_parentheses(tokens, start):
    """The tokens between the parenthesis at a place and its own end, and the place behind that."""
    depth = 0
    for place in range(start, len(tokens)):
        depth += {'(': 1, ')': -1}.get(tokens[place].text, 0)
        if depth == 0:
            return tokens[start + 1:place], place + 1
    raise Unread('a parenthesis is open at the end of a CREATE TABLE')


def at_commas(tokens):
    """The parts between the commas outside parentheses."""
    parts, depth = [[]], 0
    for token in tokens:
        depth += {'(': 1, ')': -1}.get(token.text, 0)
        if token.text == ',' and depth == 0:
            parts.append([])
        else:
            parts[-1].append(token)
    return parts


def is_key(tokens):
    return len(tokens) > 1 and tokens[0].is_word('PRIMARY') and tokens[1].is_word('KEY')


def table_of(tokens):
    """The table that a CREATE TABLE declares."""
    if len(tokens) < 4 or tokens[3].text != '(':
        raise Unread('a CREATE TABLE has no columns')
    table = Table(tokens[2].name())
    inside, behind = in_parentheses(tokens, 3)
    for part in at_commas(inside):
        if is_key(part):
            columns, _ = in_parentheses(part, 2)
            table.key = [token.name() for token in columns if token.text != ',']
        elif len(part) > 1:
            table.columns.append((part[0].name(), type_of(part[1:])))
            if any(is_key(part[place:]) for place in range(1, len(part))):
                table.key = [part[0].name()]
    for place in range(behind, len(tokens) - 2):
        if tokens[place].text == "'changelog'" and tokens[place + 1].text == '=':
            table.mode = tokens[place + 2].text[1:-1]
    return table


def type_of(tokens):
    """The type's name in capitals, with its numbers."""
    numbers = []
    if len(tokens) > 1 and tokens[1].text == '(':
        numbers = [token.text for token in in_parentheses(tokens, 1)[0] if token.text != ',']
    return tokens[0].text.upper(), numbers


def tables_and_sink(text):
    """All tables of a script by name, in their order, and the one that its INSERT fills."""
    tables, sink = {}, None
    for tokens in statements(text):
        if len(tokens) > 2 and tokens[0].is_word('CREATE') and tokens[1].is_word('TABLE'):
            table = table_of(tokens)
            tables[table.name] = table
        if len(tokens) > 2 and tokens[0].is_word('INSERT') and tokens[1].is_word('INTO'):
            sink = tokens[2].name()
    if sink is None:
        raise Unread('the script has no INSERT INTO')
    if sink not in tables:
        raise Unread(f'the script declares no table {sink}')
    return tables, tables[sink]
