"""Reads the pages of man/: what roff's escapes mean, the sections, and the entries of a section."""
import re

FONTS = {rf"\f{font}": "" for font in "BIR"}
ESCAPES = {**FONTS, r"\-": "-", r"\e": "\\", r"\(aq": "'", r"\(ga": "`", r"\(ha": "^", r"\(ti": "~", r"\(dq": '"', r"\&": "", r"\ ": " "}


def plain(text):
    """The text without fonts and escapes."""
    return re.sub(r"\\(f[BIR]|\(..|.)", lambda escape: ESCAPES[escape[0]], text)


def section(text, name):
    """The lines of a section of a page."""
    found = re.search(rf"^\.SH {name}\n(.*?)(?=^\.SH |\Z)", text, re.M | re.S)
    return found[1] if found else ""


def tags(text):
    """The lines that begin the entries of a section."""
    return [plain(line) for line in re.findall(r"^\.TP\n(.*)$", text, re.M)]


def refusals(text):
    """The refusals on the page of a command, in their order."""
    return [one for tag in tags(section(text, "REFUSALS")) for one in tag.split(", ")]
