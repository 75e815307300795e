"""The sentences of a page, of a manual, of a header's comments and of a crate's doc comments: how long they are, and which have
an idiom that a reader from elsewhere does not know."""
import re

MEAN, LONG, LONGEST, SHARE = 18, 30, 45, 8
# A reader expects "after" of time, "if" of a condition, "except" of an exception, and "otherwise".
IN_TABLES = [
    r'\bbehind\b', r'\bbut for\b', r'\bin vain\b', r'\bwhat becomes of\b',
    r'\bso (?:it is|is it|they are)(?=[,.:;]| (?:with|where|in|of|at|also|while|as|there|here|if)\b)',
    r'\b(?:only|also|even|except|but|as) where\b',
    r'\bwhere (?:no|not|nothing|nobody|neither|none|both|all)\b', r'\bwhere there (?:is|are)\b',
    r'\bwhere (?:it (?:is|was|has|does|can)|they (?:are|have|do))\b']
IN_SENTENCES = IN_TABLES + [r'\b(?:or|and|,|;) else\b', r'^Else\b', r'^Where\b(?=.*[^?]$)']
IDIOMS, IDIOMS_OF_TABLES = (re.compile('|'.join(it), re.IGNORECASE) for it in (IN_SENTENCES, IN_TABLES))
CLAUSES = re.compile(r'(?:Q\.921 )?\bclauses? \d+(?:\.\d+)*(?:(?:,| to|,? and)? \d+(?:\.\d+)*)*')


def plain(text):
    """A text whose names in backquotes and lists of clauses are one word each, and whose links are their words."""
    text = re.sub(r'\]\([^)]*\)', ']', ' '.join(text.split()))
    return re.sub(r'`[^`]*`', 'X', CLAUSES.sub('X', text))


def sentences_of(parts):
    """The sentences of paragraphs and items."""
    for part in parts:
        for sentence in re.split(r'(?<=[.!?])\s+(?=[A-Z*(\[])', plain(part)):
            if re.search(r'\w', sentence):
                yield sentence


def of_page(text):
    """The paragraphs and items of a page, without code, tables and headings."""
    text = re.sub(r'^```.*?^```', '', text, flags=re.M | re.S)
    text = re.sub(r'^(?:\||#|<!--|    ).*$', '', text, flags=re.M)
    return re.split(r'\n\s*\n|\n(?= *- | *\d+\. )', text)


def cells_of(text):
    """The cells of a page's tables, except those that are printed from the sources."""
    text = re.sub(r'<!-- printed by.*?<!-- end -->', '', text, flags=re.S)
    return [plain(it) for row in re.findall(r'^\|(.*)\|$', text, re.M) for it in row.split('|')]


def of_manual(text):
    """The paragraphs and items of a manual in mdoc, without examples, tables and prototypes; what a macro marks is one word."""
    text = re.sub(r'^\.Bd -literal.*?^\.Ed$|^\.TS$.*?^\.TE$|^\.Sh (?:SYNOPSIS|NAME)\n.*?(?=^\.Sh )', '\n', text, flags=re.M | re.S)
    text = re.sub(r'^\.(?:Sh|Ss|Pp|It|Bl|El|Dd|Dt|Os|Nd|\\")(?: .*)?$', '\n', text, flags=re.M)
    text = re.sub(r'^\.[A-Z][a-z] \S+', 'X', text, flags=re.M)
    return re.split(r'\n\s*\n', re.sub(r' ([.,;:)])', r'\1', text))


def of_header(text):
    """The comments of a header, by paragraphs and items, without examples."""
    slashes = ['\n'.join(re.findall(r'//+ ?(.*)', it)) for it in re.findall(r'(?:^ *//.*\n)+', text, re.M)]
    for comment in re.findall(r'/\*(.*?)\*/', text, re.S) + slashes:
        lines = re.sub(r'^    .*$', '', re.sub(r'^ *\* ?', '', comment, flags=re.M), flags=re.M)
        yield from re.split(r'\n\s*\n|\n(?= *- )', lines)


def of_docs(text):
    """The doc comments of a file of Rattle: of its module, and of what is public, laws among them."""
    for block in re.findall(r'^(?: *//[/!].*\n)+(?: *#\[.*\n)*(?= *pub |[^ \n]|\n)', text, re.M):
        lines = [re.sub(r'^ *//[/!] ?', '', line) for line in block.splitlines() if not line.lstrip().startswith('#[')]
        yield from of_page('\n'.join(lines))


class Measure:
    """How long the sentences of some paragraphs are, and which of them, and of cells of tables, fall short by themselves."""

    def __init__(self, parts, cells=()):
        self.sentences = list(sentences_of(parts))
        lengths = [len(re.findall(r"[\w'-]+", it)) for it in self.sentences] or [0]
        self.mean, self.longest = sum(lengths) / len(lengths), max(lengths)
        self.share = 100 * sum(it > LONG for it in lengths) / len(lengths)
        self.bad = [(length, it) for length, it in zip(lengths, self.sentences) if length > LONGEST or IDIOMS.search(it)]
        self.bad += [(len(it.split()), it) for it in cells if IDIOMS_OF_TABLES.search(it)]

    def falls_short(self):
        return bool(self.mean > MEAN or self.share > SHARE or self.bad)

    def __str__(self):
        return '%d sentences, %.1f words, %.0f %% over %d, the longest %d, %d with an idiom or too long%s' % (
            len(self.sentences), self.mean, self.share, LONG, self.longest, len(self.bad), ', falls short' * self.falls_short())
