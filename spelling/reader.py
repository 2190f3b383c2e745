"""What the text of a unit comes to, by a reader that shares no code with the program that it is compared with.

`comes_to(text)` is None where the text spells a unit, and else the first fault: its kind, line and column.
"""
import sys

sys.setrecursionlimit(100_000)

RESERVED = set(
    "AND ARRAY ASSEMBLE BEGIN BYTE CASE COMMENT DEFINE DO DOUBLE ELSE END ENTRY EQUATE FALSE FOR GLOBAL GO GOTO IF "
    "INTEGER INTRINSIC LABEL LAND LOGICAL LONG LOR MOD MOVE NOT OF OPTION OR OWN POINTER PROCEDURE REAL RETURN SCAN "
    "STEP SUBROUTINE SWITCH THEN TO TOS TRUE UNTIL VALUE WHILE XOR".split())
TYPES = {"INTEGER", "LOGICAL", "BYTE", "DOUBLE"}
RELATIONS = {"=", "<>", "<", ">", "<=", ">="}
SHIFTS = {"ASL", "ASR", "LSL", "LSR", "CSL", "CSR"}
CLASSES = {"A", "N", "AN", "AS", "ANS"}
OPTIONS = {"FORWARD", "EXTERNAL", "SPLIT"}
STATEMENTS = {"BEGIN", "IF", "WHILE", "DO", "FOR", "CASE", "GO", "GOTO", "RETURN", "MOVE", "SCAN"}
LETTERS = set(b"ABCDEFGHIJKLMNOPQRSTUVWXYZabcdefghijklmnopqrstuvwxyz")
DIGITS = set(b"0123456789")
IN_NAMES = LETTERS | DIGITS | {ord("'")}
BLANKS = set(b"\t\r ")
LONGEST_NAME = 15
MOST_OPEN = 64


class Fault(Exception):
    def __init__(self, kind, line, column):
        super().__init__(kind, line, column)
        self.told = (kind, line, column)


def allowed(byte):
    return byte in (9, 10, 13) or 32 <= byte <= 126


def end_of(members, text, start):
    """The place behind the bytes from `start` on that are all among these."""
    while start < len(text) and text[start] in members:
        start += 1
    return start


def is_command(line):
    """Whether the bytes behind a `$` are a command; blanks stand in for bytes that are not allowed."""
    line = bytes(byte if allowed(byte) and byte not in BLANKS else 32 for byte in line)
    end = end_of(IN_NAMES, line, 0)
    word = line[:end].upper()
    if word in (b"PAGE", b"TITLE"):
        return True
    if word != b"CONTROL":
        return False
    return all(is_option(option) for option in line[end:].split(b","))


def is_option(option):
    def is_name(word):
        return len(word) <= LONGEST_NAME and word[:1].isalpha() and end_of(IN_NAMES, word, 0) == len(word)

    name, equals, value = (part.strip() for part in option.partition(b"="))
    return is_name(name) and (not equals or is_name(value) or value.isdigit())


class Lexer:
    """The tokens of a text, each with its line and column, as DEFINE leaves them."""

    def __init__(self, text):
        self.text = text
        self.next = 0
        self.line = self.column = 1
        self.tokens = []
        self.defined = {}
        self.wanted = None  # what a DEFINE that is under way goes on with
        self.name = None

    def fault(self, kind, further=0):
        raise Fault(kind, self.line, self.column + further)

    def pass_to(self, end):
        """Passes bytes that may be anything that is allowed, over ends of lines."""
        while self.next < end:
            if not allowed(self.text[self.next]):
                self.fault("BADBYTE")
            if self.text[self.next] == 10:
                self.line += 1
                self.column = 0
            self.next += 1
            self.column += 1

    def put(self, token):
        """One token, kept or expanded."""
        place = (self.line, self.column)
        if self.wanted == "name":
            if token[0] != "word" or token[1] in RESERVED or token[1] in self.defined:
                self.fault("BADDEFINE")
            self.name, self.kept, self.wanted = token[1], [], "="
        elif self.wanted == "=":
            if token != ("mark", "="):
                self.fault("BADDEFINE")
            self.wanted = "#"
        elif self.wanted == "#":
            if token == ("word", "DEFINE"):
                self.fault("BADDEFINE")
            if token == ("mark", "#"):
                self.defined[self.name], self.wanted = self.kept, ";"
            else:
                self.kept.extend(self.defined.get(token[1], [token]) if token[0] == "word" else [token])
        elif self.wanted == ";":
            if token not in (("mark", ","), ("mark", ";")):
                self.fault("BADDEFINE")
            self.wanted = "name" if token[1] == "," else None
        elif token == ("word", "DEFINE"):
            self.wanted = "name"
        else:
            stands_for = self.defined.get(token[1], [token]) if token[0] == "word" else [token]
            self.tokens.extend((each, *place) for each in stands_for)

    def command(self):
        end = self.text.find(b"\n", self.next)
        end = len(self.text) if end < 0 else end
        if not is_command(self.text[self.next + 1:end]):
            self.fault("BADCOMMAND")
        self.pass_to(end)

    def comment(self, closed_by, start):
        end = self.text.find(closed_by, start)
        if end < 0:
            self.fault("OPENCOMMENT")
        self.pass_to(end + len(closed_by))

    def word(self):
        end = end_of(IN_NAMES, self.text, self.next)
        word = self.text[self.next:end].upper().decode()
        if word == "COMMENT":
            self.comment(b";", end)
            return
        if len(word) > LONGEST_NAME:
            self.fault("NAMETOOLONG")
        self.put(("word", word))
        self.pass_to(end)

    def number(self):
        octal = self.text[self.next] == ord("%")
        start = self.next + octal
        end = end_of(set(b"01234567") if octal else DIGITS, self.text, start)
        if end == start:
            self.fault("BADBYTE")
        wide = self.text[end:end + 1] in (b"D", b"d")
        if int(self.text[start:end], 8 if octal else 10) > (4_294_967_295 if wide else 65_535):
            self.fault("NUMBERTOOLARGE")
        self.put(("number",))
        self.pass_to(end + wide)

    def string(self):
        end = self.next + 1
        while self.text[end:end + 1] != b'"' or self.text[end:end + 2] == b'""':
            if end >= len(self.text) or self.text[end] == 10:
                self.fault("OPENSTRING")
            end += 2 if self.text[end] == ord('"') else 1
        for further, byte in enumerate(self.text[self.next:end]):
            if not allowed(byte):
                self.fault("BADBYTE", further)
        self.put(("string",))
        self.pass_to(end + 1)

    def mark(self):
        for length in (2, 1):
            mark = self.text[self.next:self.next + length].decode("latin-1")
            if mark in (":=", "<=", ">=", "<>") or len(mark) == 1 and mark in "(),;:.<>=+-*/&@#":
                self.put(("mark", mark))
                self.pass_to(self.next + len(mark))
                return
        self.fault("BADBYTE")

    def read(self):
        while self.next < len(self.text):
            byte = self.text[self.next]
            if byte == ord("$") and self.column == 1:
                self.command()
            elif byte in BLANKS or byte == 10:
                self.pass_to(self.next + 1)
            elif self.text.startswith(b"<<", self.next):
                self.comment(b">>", self.next + 2)
            elif byte in LETTERS:
                self.word()
            elif byte in DIGITS or byte == ord("%"):
                self.number()
            elif byte == ord('"'):
                self.string()
            else:
                self.mark()
        if self.wanted:
            self.fault("BADDEFINE")
        self.put(("end",))
        return self.tokens


class Parser:
    """A unit, read from its tokens, with what is open at each of them."""

    def __init__(self, tokens):
        self.tokens = tokens
        self.next = 0
        self.open = 0
        self.operators = []  # of each expression that is open

    def token(self):
        return self.tokens[self.next][0]

    def refuse(self, kind="SYNTAX"):
        raise Fault(kind, *self.tokens[self.next][1:])

    def take(self, opens=0, operators=0):
        self.open += opens
        if operators:
            self.operators[-1] += operators
        if self.open + sum(count // 8 for count in self.operators) > MOST_OPEN:
            self.refuse("TOODEEP")
        self.next += 1

    def is_word(self, *words):
        return self.token()[0] == "word" and self.token()[1] in words

    def is_mark(self, *marks):
        return self.token()[0] == "mark" and self.token()[1] in marks

    def is_name(self):
        return self.token()[0] == "word" and self.token()[1] not in RESERVED

    def is_plain(self):
        return self.token()[0] in ("number", "string") or self.is_word("TRUE", "FALSE")

    def expect(self, found, opens=0):
        if not found:
            self.refuse()
        self.take(opens)

    def word(self, *words):
        self.expect(self.is_word(*words))

    def mark(self, mark, opens=0):
        self.expect(self.is_mark(mark), opens)

    def name(self):
        self.expect(self.is_name())

    def took_word(self, word):
        if self.is_word(word):
            self.take()
            return True
        return False

    def took_mark(self, mark):
        if self.is_mark(mark):
            self.take()
            return True
        return False

    def listed(self, part):
        part()
        while self.took_mark(","):
            part()

    # Units and declarations

    def unit(self):
        self.word("BEGIN")
        self.declarations(True)
        self.statements()
        self.word("END")
        self.mark(".")
        if self.token() != ("end",):
            self.refuse()

    def declarations(self, in_unit):
        only_subroutines = False
        while True:
            if only_subroutines and not self.is_word("SUBROUTINE", *TYPES):
                return
            if only_subroutines:
                if self.is_word(*TYPES):
                    self.take()
                self.word("SUBROUTINE")
                self.subroutine()
            elif self.took_word("OWN"):
                typed = self.is_word(*TYPES)
                if typed:
                    self.take()
                if self.took_word("ARRAY"):
                    self.arrays()
                elif typed:
                    self.listed(self.item)
                else:
                    self.refuse()
            elif self.took_word("EQUATE"):
                self.listed(self.equate)
            elif self.is_word("INTRINSIC", "LABEL"):
                self.take()
                self.listed(self.name)
            else:
                typed = self.is_word(*TYPES)
                if typed:
                    self.take()
                if self.took_word("ARRAY"):
                    self.arrays()
                elif typed and self.took_word("POINTER"):
                    self.listed(self.name)
                elif in_unit and self.took_word("PROCEDURE"):
                    self.procedure()
                elif self.took_word("SUBROUTINE"):
                    only_subroutines = True
                    self.subroutine()
                elif typed:
                    self.listed(self.item)
                else:
                    return
            self.mark(";")

    def constant(self):
        if self.is_mark("+", "-"):
            self.take()
            self.expect(self.token()[0] == "number")
        else:
            self.expect(self.is_plain() or self.is_name())

    def item(self):
        self.name()
        if self.took_mark(":="):
            self.constant()

    def equate(self):
        self.name()
        self.mark("=")
        self.constant()
        while self.is_mark("+", "-"):
            self.take()
            self.constant()

    def array(self):
        self.name()
        self.mark("(")
        if self.took_mark("*"):
            self.mark(")")
            self.mark("=")
            self.name()
        else:
            self.pair()

    def pair(self):
        """Two constants with a colon between, and the parenthesis behind them."""
        self.constant()
        self.mark(":")
        self.constant()
        self.mark(")")

    def arrays(self):
        self.listed(self.array)
        if self.took_mark(":="):
            self.listed(self.constant)

    def parameters(self):
        """A name and its parameters, with the semicolon behind them."""
        self.name()
        if self.took_mark("("):
            self.listed(self.name)
            self.mark(")")
        self.mark(";")
        if self.took_word("VALUE"):
            self.listed(self.name)
            self.mark(";")
        while self.is_word("ARRAY", *TYPES):
            if not self.took_word("ARRAY"):
                self.take()
                self.took_word("ARRAY")
            self.listed(self.name)
            self.mark(";")

    def subroutine(self):
        self.parameters()
        self.statement()

    def procedure(self):
        self.parameters()
        if self.took_word("OPTION"):
            seen = set()
            self.listed(lambda: self.option(seen))
            if seen & {"FORWARD", "EXTERNAL"}:
                return
            self.mark(";")
        if self.took_word("BEGIN"):
            self.declarations(False)
            self.statements()
            self.word("END")
        elif self.is_name() or self.is_mark("@") or self.is_word(*STATEMENTS):
            self.statement()
        else:
            self.refuse()

    def option(self, seen):
        word = self.token()[1] if self.is_word(*OPTIONS) else None
        excluded = {"FORWARD": "EXTERNAL", "EXTERNAL": "FORWARD"}.get(word)
        self.expect(word is not None and excluded not in seen)
        seen.add(word)

    # Statements

    def statements(self):
        self.statement()
        while self.took_mark(";"):
            self.statement()

    def statement(self):
        around = self.open
        if self.is_name():
            self.named()
        elif self.took_mark("@"):
            self.name()
            self.assigned()
        elif self.is_word(*STATEMENTS):
            getattr(self, self.token()[1].lower() + "_statement")()
        self.open = around

    def named(self):
        self.take()
        if self.is_mark(":"):
            self.take(opens=1)
            self.statement()
            return
        arguments = self.arguments() if self.is_mark("(") else 0
        if arguments > 1:
            return
        if self.took_mark("."):
            self.mark("(")
            self.pair()
            self.assigned()
        elif self.is_mark(":="):
            self.assigned()

    def assigned(self):
        self.mark(":=")
        if self.is_word("MOVE", "SCAN"):
            self.effect()
        else:
            self.expression()

    def begin_statement(self):
        self.take(opens=1)
        self.statements()
        self.word("END")

    def if_statement(self):
        self.take(opens=1)
        if self.is_mark(*RELATIONS):
            self.take()
        else:
            self.condition()
        self.word("THEN")
        self.statement()
        if self.took_word("ELSE"):
            self.statement()

    def while_statement(self):
        self.take(opens=1)
        self.condition()
        self.word("DO")
        self.statement()

    def do_statement(self):
        self.take(opens=1)
        self.statement()
        self.word("UNTIL")
        self.condition()

    def for_statement(self):
        self.take(opens=1)
        self.name()
        self.mark(":=")
        self.expression()
        if self.took_word("STEP"):
            self.expression()
        self.word("UNTIL")
        self.expression()
        self.word("DO")
        self.statement()

    def case_statement(self):
        self.take(opens=1)
        self.expression()
        self.word("OF")
        self.word("BEGIN")
        self.statements()
        self.word("END")

    def go_statement(self):
        self.take()
        self.took_word("TO")
        self.name()

    def goto_statement(self):
        self.take()
        self.name()

    def return_statement(self):
        self.take()

    def move_statement(self):
        self.effect()

    scan_statement = move_statement

    def effect(self):
        if self.took_word("MOVE"):
            self.element()
            self.mark(":=")
            if self.token()[0] == "string":
                self.take()
                return
            self.element()
            if self.took_word("WHILE"):
                self.word(*CLASSES)
            else:
                self.mark(",")
                self.enclosed()
        else:
            self.word("SCAN")
            self.element()
            self.word("WHILE", "UNTIL")
            self.expression()

    def element(self):
        self.name()
        if self.is_mark("("):
            self.enclosed()

    # Expressions. Each level tells whether it is one element, or a relation of two, as a comparison of bytes begins.

    def expression(self, in_condition=False):
        self.operators.append(0)
        self.either(in_condition)
        self.operators.pop()

    def condition(self):
        self.expression(in_condition=True)

    def enclosed(self):
        self.mark("(", opens=1)
        self.expression()
        self.mark(")")
        self.open -= 1

    def arguments(self):
        """How many there are."""
        self.mark("(", opens=1)
        self.expression()
        count = 1
        while self.took_mark(","):
            self.expression()
            count += 1
        self.mark(")")
        self.open -= 1
        return count

    def chain(self, part, is_operator):
        told = part()
        while is_operator():
            self.take(operators=1)
            part()
            told = None
        return told

    def either(self, in_condition):
        self.chain(lambda: self.both(in_condition), lambda: self.is_word("OR"))

    def both(self, in_condition):
        self.chain(lambda: self.operand_of_both(in_condition), lambda: self.is_word("AND"))

    def operand_of_both(self, in_condition):
        told = self.level(["LOR", "XOR", "LAND"])
        if in_condition and told == "relation" and self.took_mark(","):
            self.enclosed()

    def level(self, words):
        if not words:
            return self.relation()
        return self.chain(lambda: self.level(words[1:]), lambda: self.is_word(words[0]))

    def relation(self):
        left = self.sum()
        if not self.is_mark(*RELATIONS):
            return left
        self.take(operators=1)
        return "relation" if self.sum() == left == "element" else None

    def sum(self):
        signed = self.is_mark("+", "-")
        if signed:
            self.take()
        told = self.chain(self.term, lambda: self.is_mark("+", "-"))
        return None if signed else told

    def term(self):
        return self.chain(self.shifted, lambda: self.is_mark("*", "/") or self.is_word("MOD"))

    def shifted(self):
        told = self.unary()
        while self.is_mark("&"):
            self.take(operators=1)
            self.word(*SHIFTS)
            self.mark("(")
            self.constant()
            self.mark(")")
            told = None
        return told

    def unary(self):
        if self.is_word("NOT"):
            self.take(opens=1)
            self.unary()
            self.open -= 1
            return None
        told = self.primary()
        if self.took_mark("."):
            self.mark("(")
            self.pair()
            return None
        return told

    def primary(self):
        if self.is_plain():
            self.take()
        elif self.is_name():
            self.take()
            return "element" if not self.is_mark("(") or self.arguments() == 1 else None
        elif self.took_mark("@"):
            self.element()
        elif self.is_mark("("):
            self.enclosed()
        elif self.is_word(*TYPES):
            self.take()
            self.enclosed()
        else:
            self.refuse()
        return None


def comes_to(text):
    try:
        Parser(Lexer(text).read()).unit()
    except Fault as fault:
        return fault.told
    return None
