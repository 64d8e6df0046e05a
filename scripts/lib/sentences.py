"""Finds the sentences of a man page or a Markdown document, and counts their words.

What is in code type counts as one word. Tables, examples, headings, synopses and the lines that name an option or a refusal are no sentences.
A list item begins a sentence of its own.
"""
import re

from lib.manual import plain

# The end of a sentence: a single point or mark, perhaps in quotation marks, parentheses or bold, and then a space.
END = re.compile(r"""(?<=[^\s.])[.!?]["')*]*(?=\s|$)""")
CODE = "code"


def of_page(text):
    """The paragraphs of a man page."""
    text = re.sub(r"^\.SH SYNOPSIS\n.*?(?=^\.SH )|^\.EX\n.*?^\.EE$", ".PP", text, flags=re.M | re.S)
    text = re.sub(r"^\.TP\n.*$", ".PP", text, flags=re.M)
    return [plain(re.sub(r"\\fB.*?\\fR", CODE, part, flags=re.S)) for part in re.split(r"^\..*\n", text, flags=re.M)]


def of_document(text):
    """The paragraphs and the list items of a Markdown document."""
    text = re.sub(r"^```.*?^```$", "", text, flags=re.M | re.S)
    text = re.sub(r"^(    |\||#|!\[).*$", "", text, flags=re.M)
    text = re.sub(r"\[([^\]]*)\]\([^)]*\)", r"\1", re.sub(r"`[^`]+`", CODE, text))
    return re.split(r"\n\s*\n|^ *(?:-|\d+\.) ", text, flags=re.M)


def sentences(path):
    """The sentences of the file, each in one line."""
    text = path.read_text()
    found = []
    for part in of_page(text) if path.suffix == ".1" else of_document(text):
        found += [" ".join(one.split()) for one in END.split(part)]
    return [one for one in found if one]


def words(sentence):
    return [word for word in sentence.split() if re.search(r"\w", word)]
