"""Reads TOML documents, and keeps the lines of keys and items, so that tools can point at them."""
import bisect
import re

SPACE = re.compile(r"[ \t]*")
# Spaces, comments and ends of lines.
BLANK = re.compile(r"(?:[ \t\n]|\r\n|#[^\n]*)*")
LINE_END = re.compile(r"[ \t]*(?:#[^\n]*)?(?:\r?\n|\Z)")
BARE_KEY = re.compile(r"[A-Za-z0-9_-]+")
TIME = r"\d\d:\d\d(?::\d\d(?:\.\d+)?)?"
DATE_OR_TIME = re.compile(
    rf"\d{{4}}-\d\d-\d\d(?:[Tt ]{TIME}(?:[Zz]|[+-]\d\d:\d\d)?)?(?![\w.:-])|{TIME}(?![\w.:-])"
)
WORD = re.compile(r"[^\s,\]}#]+")
WHOLE = re.compile(r"[+-]?(?:0|[1-9](?:_?\d)*)")
BASED = re.compile(r"0x[\dA-Fa-f](?:_?[\dA-Fa-f])*|0o[0-7](?:_?[0-7])*|0b[01](?:_?[01])*")
FLOAT = re.compile(
    r"[+-]?(?:0|[1-9](?:_?\d)*)(?:\.\d(?:_?\d)*)?(?:[eE][+-]?\d(?:_?\d)*)?|[+-]?(?:inf|nan)"
)
PLAIN = re.compile(r'[^"\\\x00-\x08\x0a-\x1f\x7f]+')
ESCAPES = {"b": "\b", "t": "\t", "n": "\n", "f": "\f", "r": "\r", '"': '"', "\\": "\\"}
HEX_ESCAPES = {"u": 4, "U": 8}
CONTROL = re.compile(r"[\x00-\x08\x0b\x0c\x0e-\x1f\x7f]|\r(?!\n)")
LITERALS = {"true": True, "false": False}


class TomlFault(Exception):
    """Why a text is no TOML document, and the line."""

    def __init__(self, line, what):
        super().__init__(f"line {line}: {what}")


class Document:
    """The table of a document, and the lines of its keys and items by their paths."""

    def __init__(self):
        self.table = {}
        self.lines = {}

    def line(self, *path):
        """The line at which the value with this path begins, or else what is around it."""
        while path and path not in self.lines:
            path = path[:-1]
        return self.lines.get(path, 1)


def read(path):
    """The document in a file."""
    with open(path, "rb") as file:
        data = file.read()
    try:
        text = data.decode("utf-8-sig")
    except UnicodeDecodeError as fault:
        line = data.count(b"\n", 0, fault.start) + 1
        raise TomlFault(line, "the bytes are no UTF-8") from None
    return Reader(text).document()


class Reader:
    """Goes through the text of a document."""

    def __init__(self, text):
        self.text = text
        self.at = 0
        self.ends = [found.start() for found in re.finditer("\n", text)]
        self.made = Document()
        # The tables that a header named, and the values that take no more keys, by their paths.
        self.headed = set()
        self.closed = set()

    def document(self):
        table, path = self.made.table, ()
        while self.skip(BLANK) < len(self.text):
            if self.text[self.at] == "[":
                table, path = self.header()
            else:
                self.pair(table, path)
            if self.take(LINE_END) is None:
                self.fail("something follows where the line is to end")
        return self.made

    # ---- steps through the text

    def line(self):
        return bisect.bisect_left(self.ends, self.at) + 1

    def fail(self, what):
        raise TomlFault(self.line(), what)

    def take(self, form):
        """The text of this form that begins here, which is passed; or None."""
        found = form.match(self.text, self.at)
        if found:
            self.at = found.end()
            return found.group()
        return None

    def skip(self, form):
        self.take(form)
        return self.at

    def has(self, word):
        """Whether a word begins here, which is then passed."""
        begins = self.text.startswith(word, self.at)
        self.at += len(word) if begins else 0
        return begins

    def want(self, word):
        if not self.has(word):
            self.fail(f"`{word}` is missing")

    # ---- keys, tables and pairs

    def header(self):
        """Opens the table that a header names, and returns it and its path."""
        line, many = self.line(), self.has("[[")
        if not many:
            self.want("[")
        keys = self.keys()
        self.want("]]" if many else "]")
        table, path = self.made.table, ()
        for key in keys[:-1]:
            table, path = self.inside(table, path, key)
        path += (keys[-1],)
        if many:
            items = table.setdefault(keys[-1], [])
            if not isinstance(items, list) or path in self.closed:
                self.fail(f"`{keys[-1]}` is no array of tables")
            self.made.lines.setdefault(path, line)
            path += (len(items),)
            items.append({})
            found = items[-1]
        else:
            found = table.setdefault(keys[-1], {})
            if not isinstance(found, dict) or path in self.headed or path in self.closed:
                self.fail(f"`{keys[-1]}` is there twice")
            self.headed.add(path)
        self.made.lines[path] = line
        return found, path

    def inside(self, table, path, key):
        """The table at a key, or the last one of the array there. It is made if it isn't there."""
        self.made.lines.setdefault(path + (key,), self.line())
        found, path = table.setdefault(key, {}), path + (key,)
        if isinstance(found, list) and found and path not in self.closed:
            path += (len(found) - 1,)
            found = found[-1]
        if not isinstance(found, dict) or path in self.closed:
            self.fail(f"`{key}` takes no more keys")
        return found, path

    def keys(self):
        found = []
        while True:
            self.skip(SPACE)
            found.append(self.key())
            self.skip(SPACE)
            if not self.has("."):
                return found

    def key(self):
        if self.text.startswith(('"""', "'''"), self.at):
            self.fail("a key is a text of one line")
        if self.has('"'):
            return self.quoted()
        if self.has("'"):
            return self.literal()
        return self.take(BARE_KEY) or self.fail("a key is missing")

    def pair(self, table, path):
        """Reads `key = value` into a table."""
        line, keys = self.line(), self.keys()
        for key in keys[:-1]:
            table, path = self.inside(table, path, key)
            if path in self.headed:
                self.fail(f"`{key}` is there twice")
        path += (keys[-1],)
        if keys[-1] in table:
            self.fail(f"`{keys[-1]}` is there twice")
        self.want("=")
        self.skip(SPACE)
        self.made.lines[path] = line
        table[keys[-1]] = self.value(path)

    # ---- values

    def value(self, path):
        if self.has('"""'):
            return self.long_quoted()
        if self.has("'''"):
            return self.long_literal()
        if self.has('"'):
            return self.quoted()
        if self.has("'"):
            return self.literal()
        if self.has("["):
            return self.array(path)
        if self.has("{"):
            return self.inline_table(path)
        return self.scalar()

    def scalar(self):
        """A number, a boolean, or a date or time, which stays a text in a tuple."""
        moment = self.take(DATE_OR_TIME)
        if moment:
            return (moment,)
        before = self.at
        word = self.take(WORD) or self.fail("a value is missing")
        if word in LITERALS:
            return LITERALS[word]
        digits = word.replace("_", "")
        if WHOLE.fullmatch(word):
            return int(digits)
        if BASED.fullmatch(word):
            return int(digits, 0)
        if FLOAT.fullmatch(word):
            return float(digits)
        self.at = before
        return self.fail(f"`{word}` is no value; texts stand in quotes")

    def array(self, path):
        self.closed.add(path)
        items = []
        while True:
            self.skip(BLANK)
            if self.has("]"):
                return items
            item = path + (len(items),)
            self.made.lines[item] = self.line()
            items.append(self.value(item))
            self.skip(BLANK)
            if not self.has(","):
                self.want("]")
                return items

    def inline_table(self, path):
        table = {}
        while True:
            self.skip(BLANK)
            if self.has("}"):
                break
            self.pair(table, path)
            self.skip(BLANK)
            if not self.has(","):
                self.want("}")
                break
        self.closed.add(path)
        return table

    # ---- texts

    def quoted(self):
        parts = []
        while not self.has('"'):
            parts.append(self.take(PLAIN) or self.escape())
        return "".join(parts)

    def escape(self):
        if not self.has("\\"):
            self.fail("a text isn't closed")
        sign = self.text[self.at : self.at + 1]
        self.at += 1
        if sign in ESCAPES and sign:
            return ESCAPES[sign]
        digits = self.text[self.at : self.at + HEX_ESCAPES.get(sign, 0)]
        if not re.fullmatch("[0-9A-Fa-f]+", digits) or len(digits) < HEX_ESCAPES[sign]:
            self.fail(f"`\\{sign}` is no escape")
        self.at += len(digits)
        number = int(digits, 16)
        if number > 0x10FFFF or 0xD800 <= number < 0xE000:
            self.fail(f"`\\{sign}{digits}` is no character")
        return chr(number)

    def literal(self):
        end = self.text.find("'", self.at)
        text = self.text[self.at : end]
        if end < 0 or "\n" in text:
            self.fail("a text isn't closed")
        self.check_control(text)
        self.at = end + 1
        return text

    def long_quoted(self):
        self.take(re.compile(r"\r?\n"))
        parts = []
        while not self.has('"""'):
            if self.take(re.compile(r"\\[ \t]*\r?\n\s*")):
                continue
            if self.text.startswith(("\n", "\r\n", '"'), self.at):
                parts.append(self.text[self.at])
                self.at += 1
            else:
                parts.append(self.take(PLAIN) or self.escape())
        # Of more than three quotes in a row the last three are the end.
        parts += ['"' for _ in range(2) if self.has('"')]
        return "".join(parts).replace("\r\n", "\n")

    def long_literal(self):
        self.take(re.compile(r"\r?\n"))
        end = self.text.find("'''", self.at)
        if end < 0:
            self.fail("a text isn't closed")
        end += sum(self.text.startswith("'" * (3 + more), end) for more in (1, 2))
        text = self.text[self.at : end]
        self.check_control(text)
        self.at = end + 3
        return text.replace("\r\n", "\n")

    def check_control(self, text):
        if CONTROL.search(text):
            self.fail("a text has a control character")
