"""Draws XML and PYX, well-formed and not, on which the two programs xmlpyx have to say the same: for trials/test-xmlpyx."""

import importlib.machinery
import importlib.util
import subprocess
import sys
import tempfile

NAMES = ["a", "b", "p:a", "item", "_x-1.y", "ä", "\u4e00", "xml:space", "A" * 40]
TEXTS = ["", "x", "tea & cup", "<&>\"'", "\n", "\t \r", "\\n\\", "ä€\U0001f333", "]]>", "  ", "a" * 300, "\u0085\u2028", "é\r\n", "?>", "--"]
ENTITIES = ["e", "f", "g", "ä", "à", "deep", "many", "amp", "lt"]
SUBSETS = [
    "<!ENTITY e 'x'>", "<!ENTITY e \"y<b c='&f;'/>\">", "<!ENTITY f '&g;'>", "<!ENTITY g '&#38;g;'>", "<!ENTITY f '&e;&e;'>", "<!ENTITY ä 'ö'>",
    "<!ENTITY à '&ä;'>", "<!ENTITY deep '&e;&f;&g;'>", "<!ENTITY many '&deep;&deep;&ä;'>", "<!ENTITY % p SYSTEM 'p.ent'>%p;", "%q;",
    "<!ENTITY o SYSTEM 'o.xml'>", "<!ATTLIST a d CDATA '1' n NMTOKENS #IMPLIED>", "<!ATTLIST item d CDATA '&e;'>", "<!ELEMENT a ANY>",
    "<!NOTATION n SYSTEM 'n'>", "<?p in the type?>", "<!-- within -->", "<!ENTITY % r \"<!ENTITY e 'r'>\">%r;", "<!ENTITY e '<'>", "<!ENTITY u SYSTEM 'u' NDATA n>",
]
ENCODINGS = ["UTF-8", "utf-8", "ISO-8859-1", "windows-1252", "windows-1251", "koi8-r", "US-ASCII", "UTF-16", "utf8", "latin.1", "Shift_JIS", "cp037",
             "no-such", "rot13", "idna", "ISO_8859-5:1988", "iso8859-15", "unicode_escape", "hz", "mac-roman", "cp-1255", "tis.620", "Big5", "undefined"]
CODECS = {"iso-8859-1": "latin-1", "windows-1252": "cp1252", "windows-1251": "cp1251", "koi8-r": "koi8-r", "iso8859-15": "iso8859-15", "mac-roman": "mac-roman"}


def quoted(draw, text):
    """A text in XML, mostly as it has to be."""
    if draw.random() < 0.9:
        text = text.replace("&", "&amp;").replace("<", "&lt;").replace("]]>", "]]&gt;")
    kind = draw.random()
    if kind < 0.1:
        return "<![CDATA[" + text + "]]>"
    if kind < 0.2:
        return "".join(f"&#x{ord(character):x};" for character in text)
    return text


def drawn_reference(draw):
    return f"&{draw.choice(('amp', 'lt', 'e')) if draw.random() < 0.7 else draw.choice(ENTITIES)};"


def drawn_tag(draw):
    attributes = []
    for name in draw.sample(NAMES, draw.choice((0, 0, 1, 2, 3))):
        value = draw.choice(TEXTS).replace("&", "&amp;").replace("<", "&lt;").replace('"', "&quot;")
        if draw.random() < 0.2:
            value += drawn_reference(draw)
        attributes.append(f'{draw.choice((" ", chr(10), "  "))}{name}="{value}"')
    return "".join(attributes)


def drawn_element(draw, depth):
    name = draw.choice(NAMES)
    if depth > 6 or draw.random() < 0.2:
        return f"<{name}{drawn_tag(draw)}/>"
    parts = [f"<{name}{drawn_tag(draw)}>"]
    for _ in range(draw.choice((0, 1, 2, 3, 5))):
        kind = draw.random()
        if kind < 0.4:
            parts.append(quoted(draw, draw.choice(TEXTS)))
        elif kind < 0.7:
            parts.append(drawn_element(draw, depth + 1))
        elif kind < 0.8:
            parts.append(draw.choice(("<!-- c -->", "<?p?>", "<?p  q r ?>", "<?xsl a\nb?>", "<!---->")))
        elif kind < 0.9:
            parts.append(drawn_reference(draw))
        else:
            parts.append("".join(draw.choices(TEXTS, k=20)).replace("&", "&amp;").replace("<", "&lt;").replace("]]>", ""))
    return "".join(parts) + f"</{name}>"


def encoded(draw, text, encoding):
    codec = CODECS.get(encoding.lower(), "utf-8")
    if draw.random() < 0.1:
        codec = draw.choice(("utf-16-le", "utf-16-be"))
        text = draw.choice(("\ufeff", "\ufeff", "")) + text
    return text.encode(codec, "replace")


def drawn_xml(draw):
    """A document, mostly well-formed."""
    encoding = draw.choice(ENCODINGS[:7]) if draw.random() < 0.9 else draw.choice(ENCODINGS)
    parts = []
    if draw.random() < 0.4:
        parts.append(f"<?xml version='1.0' encoding='{encoding}'{draw.choice(('', '', ' standalone=' + chr(39) + 'yes' + chr(39)))}?>")
    else:
        encoding = "UTF-8"
    parts += draw.choices(("", "\n", "<!-- before -->", "<?p before?>"), k=2)
    if draw.random() < 0.5:
        outside = draw.choice(("", "", " SYSTEM 'a.dtd'", " PUBLIC 'p' 'a.dtd'"))
        parts.append(f"<!DOCTYPE a{outside} [{SUBSETS[0]}{''.join(draw.choices(SUBSETS, k=draw.randint(0, 6)))}]>")
    parts.append(drawn_element(draw, 0))
    parts += draw.choices(("", "\n", "<!-- behind -->", "<?p behind?>"), k=2)
    return encoded(draw, "".join(parts), encoding)


def drawn_pyx(draw):
    """Lines of a document, mostly as they have to be."""
    lines = []

    def escaped(text):
        return text.replace("\\", draw.choice(("\\", "\\\\"))).replace("\n", "\\n").replace("\t", draw.choice(("\\t", "\t"))).replace("\r", "\\r")

    def element(depth):
        name = draw.choice(NAMES)
        lines.append("(" + name)
        for other in draw.sample(NAMES, draw.choice((0, 0, 1, 3))):
            lines.append(f"A{other} {escaped(draw.choice(TEXTS))}")
        for _ in range(draw.choice((0, 1, 2, 4)) if depth < 6 else 0):
            kind = draw.random()
            if kind < 0.4:
                element(depth + 1)
            else:
                lines.append("-" + escaped(draw.choice(TEXTS)) if kind < 0.9 else draw.choice(("?p ", "?natix:comment ")) + escaped(draw.choice(("x y", "q ", "", "1", "a-b", "?>", "-", "--", " z"))))
        lines.append(")" + name)

    element(0)
    if draw.random() < 0.2:
        lines.insert(draw.randint(0, len(lines)), draw.choice(("", "?p", "?XML x", "Aa b", "-x", "(1", ")a", "x", "?p ?>", "(a", "A", "-\x01", "-\ufffe", "(\u0085",
                                                                  "?natix:doctype a [<!ENTITY e 'x'>]", "?natix:doctype a>", "?natix:comment x--")))
    return (draw.choice(("\n", "\r\n")).join(lines) + draw.choice(("\n", ""))).encode()


def spoiled(draw, data):
    """The same with a few changes that may be anything."""
    data = bytearray(data)
    for _ in range(draw.choice((1, 1, 2, 5))):
        at, other = draw.randint(0, len(data)), draw.randint(0, len(data))
        kind = draw.randrange(6)
        if kind == 0 and data:
            data[at % len(data)] = draw.randrange(256)
        elif kind == 1:
            del data[at : at + draw.choice((1, 2, 10))]
        elif kind == 2:
            data[at:at] = data[other : other + draw.choice((1, 5, 50))]
        elif kind == 3:
            del data[at:]
        elif kind == 4:
            data[at:at] = draw.choice((b"<", b">", b"&", b"&e;", b"&a ;", b"]]>", b"<a>", b"</a>", b"\0", b"\xff", b"\xed\xa0\x80", b"\xc0\x80", b"\xf4\x90\x80\x80", b"\xef\xbf\xbf", b"\n", b"\\"))
        else:
            data[at:at] = bytes(draw.choices(range(256), k=3))
    return bytes(data)


def stretched(draw, data):
    """The same with one place repeated, up to the limits of a node and of what is written at once."""
    at = draw.randint(0, len(data))
    piece = data[at : at + draw.choice((1, 3, 20))]
    return data[:at] + piece * (draw.choice((65536, 70000, 1048576, 1048577, 1100000, 2097152)) // max(1, len(piece)) + draw.randint(-2, 2)) + data[at:]


def drawn_input(draw, direction):
    data = drawn_xml(draw) if direction == "in" else drawn_pyx(draw)
    kind = draw.random()
    if kind < 0.3:
        data = spoiled(draw, data)
    elif kind < 0.33:
        data = stretched(draw, data)
    return data


class Inside:
    """The Python program within this process: thousands of runs a minute."""

    def __init__(self, path):
        loader = importlib.machinery.SourceFileLoader("xmlpyx_inside", path)
        spec = importlib.util.spec_from_loader("xmlpyx_inside", loader)
        self.module = importlib.util.module_from_spec(spec)
        kept, sys.dont_write_bytecode = sys.dont_write_bytecode, True
        loader.exec_module(self.module)
        sys.dont_write_bytecode = kept

    def answer(self, data, *words):
        """Its status, output and messages."""
        output, said = [], []
        size = self.module.BLOCK
        self.module.blocks = lambda: (data[at : at + size] for at in range(0, len(data), size))
        self.module.write = lambda block: output.append(bytes(block))
        self.module.tell = lambda message: said.append(f"xmlpyx: {message}\n".encode("utf-8", "backslashreplace"))
        status = self.module.main(list(words))
        return status, b"".join(output), b"".join(said)


def answer(program, data, *words):
    """The status, output and messages of a program whose input is a file with this data."""
    with tempfile.TemporaryFile() as file:
        file.write(data)
        file.seek(0)
        done = subprocess.run([*program, *words], stdin=file, stdout=subprocess.PIPE, stderr=subprocess.PIPE)
    return done.returncode, done.stdout, done.stderr
