"""The part of Markdown that our pages use, as the source of a manual page."""

import re

# Characters that a page shows as something else, or does not let a reader copy.
ESCAPES = {"\\": "\\e", "-": "\\-", "'": "\\(aq", "`": "\\(ga", "^": "\\(ha", "~": "\\(ti"}
WIDTH = 78


def literal(text):
    """Text whose characters a reader can copy from the page as they are."""
    return "".join(ESCAPES.get(it, it if ord(it) < 128 else f"\\[u{ord(it):04X}]") for it in text)


def prose(text):
    """Text of a sentence: its lines may break at hyphens."""
    return literal(text).replace("\\-", "-").replace("\\(aq", "'")


def lines(text):
    """Lines of the source, none of which is a macro."""
    return "".join(f"\\&{line}\n" if line[:1] in (".", "'") else f"{line}\n" for line in text.split("\n"))


def filled(text):
    """A paragraph's text in lines of the source."""
    rows = [""]
    for word in text.split():
        if rows[-1] and len(rows[-1]) + len(word) >= WIDTH:
            rows.append("")
        rows[-1] += " " * bool(rows[-1]) + word
    return lines("\n".join(rows))


def code_block(text):
    return f".PP\n.nf\n{lines(literal(text))}.fi\n"


class Markdown:
    """Turns Markdown into the source of a page. `pages` has the text for a link to another document, by its target; a
    link to a section of one has it in parentheses."""

    def __init__(self, pages):
        self.pages = pages

    def inline(self, text):
        """The marks within a paragraph: code, bold and emphasis, links."""
        parts = re.split(r"(`[^`]+`|\*\*.+?\*\*|\[[^]]*\]\([^)]*\))", " ".join(text.split()))
        return "".join(self.mark(part) for part in parts)

    def mark(self, part):
        if re.fullmatch(r"`[^`]+`", part):
            return f"\\fB{literal(part[1:-1])}\\fP"
        if re.fullmatch(r"\*\*.+\*\*", part):
            return f"\\fB{prose(part[2:-2].replace('`', ''))}\\fP"
        link = re.fullmatch(r"\[([^]]*)\]\(([^)]*)\)", part)
        if link:
            document, _, part = link[2].partition("#")
            if document not in self.pages:
                return prose(link[1] + " in the documentation" * (document.endswith(".md") and not part))
            said = self.pages[document]
            return f"{prose(link[1])} ({said})" if part and link[1] != document else said
        return re.sub(r"(?<!\w)\*([^*\s][^*]*?)\*(?!\w)", r"\\fI\1\\fP", prose(part))

    def page(self, text):
        """All blocks of a page or a section."""
        return "".join(self.block(it) for it in blocks(text))

    def block(self, text):
        if text.startswith("```"):
            return code_block(text.split("\n", 1)[1].rsplit("\n", 1)[0])
        if text.startswith("    "):
            return code_block("\n".join(line[4:] for line in text.split("\n")))
        picture = re.fullmatch(r"!\[(.*)\]\(.*\)", text)
        if picture:
            return f".PP\n{filled(prose(picture[1] + '.'))}"
        if text.startswith("#"):
            head = text.lstrip("# ")
            return f".SS {prose(head)}\n" if text.startswith("###") else f".SH {prose(head.upper())}\n"
        if text.startswith("|"):
            return self.table(text)
        if re.match(r"(- |\d+\. )", text):
            return self.items(text)
        return f".PP\n{filled(self.inline(text))}"

    def items(self, text):
        """A list, and the lists within its entries."""
        page = ""
        for entry in re.split(r"\n(?=- |\d+\. )", text):
            mark, rest = entry.split(" ", 1)
            first, *inner = re.split(r"\n(?= +- )", rest)
            page += f".IP {literal(mark) if mark != '-' else chr(92) + '(bu'} 4\n{filled(self.inline(first))}"
            if inner:
                inner = "\n".join(re.sub(r"(?m)^ {2,3}", "", it) for it in inner)
                page += f".RS 4\n{self.items(inner)}.RE\n"
        return page

    def table(self, text):
        """A table as a list of terms, which are its first column. Below a term come the other cells of the row, each
        with the head of its column if there are several. Rows that begin alike share their term."""
        head, _, *rows = [cells(row) for row in text.split("\n")]
        page, last = "", None
        for term, *rest in rows:
            page += ".IP\n" if term == last else f".TP\n{filled(self.inline(term))}"
            last = term
            names = [f"{name[:1].upper()}{name[1:]}: " for name in head[1:]] if len(rest) > 1 else [""]
            page += ".br\n".join(filled(f"\\fI{prose(name)}\\fP{self.inline(cell)}" if name else self.inline(cell))
                                 for name, cell in zip(names, rest) if cell)
        return page


def cells(row):
    """The cells of a row of a table."""
    return [it.strip().replace("\\|", "|") for it in re.split(r"(?<!\\)\|", row)[1:-1]]


def blocks(text):
    """The blocks of a page, one after the other."""
    found, fence = [], False
    for line in text.split("\n"):
        starts = not found or not found[-1]
        if fence or line.startswith("```"):
            found[-1:] = [f"{found[-1]}\n{line}"] if fence else found[-1:] + [line]
            fence = fence != line.startswith("```")
            found += [] if fence else [""]
        elif not line.strip():
            found += [] if starts else [""]
        elif line.startswith("#"):
            found += [line, ""]
        elif starts:
            found[-1:] = [line]
        else:
            found[-1] += f"\n{line}"
    return [it for it in found if it]


def sections(text):
    """The sections of a page by their heads: the text between two lines `## HEAD`."""
    parts = re.split(r"(?m)^## (.*)\n", text)
    return dict(zip(parts[1::2], parts[2::2]))
