"""Statements that would end a branch's transaction, or begin another one: they are refused before they are sent."""

from __future__ import annotations

import re
from collections.abc import Iterator

from .errors import EndRefused

#: What may stand between two words: comments, too.
BETWEEN = r"(?:\s|--[^\n\r]*|\#[^\n]*|/\*.*\*/)+"
#: What begins, ends or prepares a transaction, as the first words of a statement. A rollback to a savepoint ends nothing, and
#: `BEGIN NOT ATOMIC` begins a block of statements of MariaDB.
ENDS = re.compile(
    rf"COMMIT\b|END\b|ABORT\b|XA\b|(?:START|PREPARE){BETWEEN}TRANSACTION\b"
    r"|BEGIN\b(?!\s+NOT\s+ATOMIC\b)|ROLLBACK\b(?!(\s+(WORK|TRANSACTION))?\s+TO\b)"
    r"|SET\b.*\bAUTOCOMMIT\b",
    re.IGNORECASE | re.DOTALL,
)
#: What stays in the session after the transaction.
STAYS = re.compile(rf"(?:SET|RESET|USE)\b(?!{BETWEEN}(?:LOCAL|TRANSACTION|CONSTRAINTS|STATEMENT)\b)", re.IGNORECASE | re.DOTALL)
#: What ends a part of a block of statements.
END_OF_BLOCK = re.compile(r"END\b", re.IGNORECASE)
#: What stands before the first word.
BEFORE = re.compile(r"[\s(;]+")


#: A text of more letters isn't kept, and no more texts than so many are.
LONG, MOST_SEEN = 2000, 1000


#: Where a comment between /* and */ begins or ends, if one may hold others.
NESTED = re.compile(r"/\*|\*/")


class Texts:
    """The texts of statements, as a kind of database reads them: `quoted` matches all of a text in quotes or of another word in which no
    statement ends, and `comment` all of a comment. If comments `nest`, those between /* and */ are looked through apart from that. What
    `block` matches begins a block of statements, whose parts END ends; if comments nest, one END ends it all."""

    def __init__(self, quoted: str, comment: str, nest: bool = False, block: str | None = None):
        self._block = None if block is None else re.compile(block, re.IGNORECASE | re.DOTALL)
        self._comment: re.Pattern[str] = re.compile(comment, re.DOTALL)
        self._nest = nest
        # Texts of which it was seen that they end nothing, and whether what they do stays: programs say the same again and again.
        self._seen: dict[str, bool] = {}
        nested = r"|(?P<nested>/\*)" if nest else ""
        self._parts: re.Pattern[str] = re.compile(f"(?P<skipped>{quoted}|{comment}){nested}|;", re.DOTALL)

    def refuse_ends(self, text: str) -> bool:
        """Raises EndRefused if one of the statements in the text ends a transaction or begins one.
        Whether one of them does what stays in the session after the transaction."""
        stays = self._seen.get(text)
        if stays is None:
            stays = self._look_at(text)
            if len(text) <= LONG:
                if len(self._seen) >= MOST_SEEN:
                    self._seen.clear()
                self._seen[text] = stays
        return stays

    def _look_at(self, text: str) -> bool:
        is_in_block = stays = False
        for statement in self._statements(text):
            is_in_block = is_in_block or self._block is not None and bool(self._block.match(statement))
            if ENDS.match(statement) and not (is_in_block and END_OF_BLOCK.match(statement)):
                first = statement.split("\n", 1)[0]
                raise EndRefused(f"it would end the branch's transaction, which ends with its block: {first[:80]}")
            stays = stays or bool(STAYS.match(statement))
            is_in_block = is_in_block and not (self._nest and END_OF_BLOCK.match(statement))
        return stays

    def _statements(self, text: str) -> Iterator[str]:
        """The statements of a text, each from its first word on."""
        begin: int | None = 0
        while begin is not None:
            begin = self._first_word(text, begin)
            end = self._end(text, begin) if text.find(";", begin) >= 0 else None
            yield text[begin:end]
            begin = None if end is None else end + 1

    def _first_word(self, text: str, begin: int) -> int:
        while True:
            found = BEFORE.match(text, begin) or self._comment.match(text, begin)
            if found is not None:
                begin = found.end()
            elif self._nest and text.startswith("/*", begin):
                begin = self._end_of_nested(text, begin)
            else:
                return begin

    def _end(self, text: str, begin: int) -> int | None:
        """Where the semicolon stands that ends the statement."""
        while True:
            found = self._parts.search(text, begin)
            if found is None:
                return None
            if self._nest and found.group("nested"):
                begin = self._end_of_nested(text, found.start())
            elif found.group("skipped"):
                begin = found.end()
            else:
                return found.start()

    @staticmethod
    def _end_of_nested(text: str, begin: int) -> int:
        """Where a comment ends that may hold others. The database would refuse one that never ends."""
        depth = 0
        for found in NESTED.finditer(text, begin):
            depth += 1 if found.group() == "/*" else -1
            if depth == 0:
                return found.end()
        return len(text)


#: A letter as PostgreSQL takes it in a name: all that isn't ASCII is one.
LETTER = "A-Za-z_\x80-\U0010ffff"
#: PostgreSQL: a comment may hold others. Strings with E have backslashes, and those between dollars anything; but a dollar within a name
#: begins none. A line ends with a carriage return, too.
POSTGRESQL = Texts(
    r"[eE]'(?:[^'\\]|\\.|'')*'|'(?:[^']|'')*'|\"(?:[^\"]|\"\")*\""
    rf"|[{LETTER}][{LETTER}0-9$]*|\$(?P<tag>(?:[{LETTER}][{LETTER}0-9]*)?)\$.*?\$(?P=tag)\$",
    r"--[^\n\r]*",
    nest=True,
    block=r"CREATE\b.*\bBEGIN\s+ATOMIC\b",
)
#: MariaDB: what stands in a comment that begins with an exclamation mark is a statement all the same.
MARIADB = Texts(
    r"'(?:[^'\\]|\\.|'')*'|\"(?:[^\"\\]|\\.|\"\")*\"|`[^`]*`",
    r"--(?=[\s]|$)[^\n]*|\#[^\n]*|/\*(?!M?!)(?:[^*]|\*(?!/))*\*/|/\*M?!\d*|\*/",
    block=r"BEGIN\s+NOT\s+ATOMIC\b",
)
