"""Random texts of units: most are made by the grammar and then broken, in a token or in a character."""
import re

# Alternatives are parted by bars. The first of each rule ends soonest; it is taken where the text gets deep.
RULES = {
    "unit": "BEGIN declarations subroutines statements END .",
    "declarations": " | declaration ; declarations | procedure ; declarations",
    "locals": " | declaration ; locals",
    "subroutines": " |  |  | subroutine ; subroutines",
    "declaration": "own type items | own typed ARRAY arrays values | type POINTER names | EQUATE equates"
                   " | INTRINSIC names | LABEL names",
    "own": " |  | OWN",
    "typed": " | type",
    "type": "INTEGER | LOGICAL | BYTE | DOUBLE",
    "names": "name |  name , names",
    "items": "name | name := constant | name , items",
    "arrays": "name ( constant : constant ) | name ( * ) = name | name ( * ) = name , arrays",
    "values": " | := constants",
    "constants": "constant | constant , constants",
    "equates": "name = total | name = total , equates",
    "total": "constant | constant + total | constant - total",
    "constant": "number | + number | - number | 'AB' | TRUE | FALSE | name",
    "number": "1 | 5 | 65535 | %17 | 4D | %7D",
    "name": "A | B | I | N | AN | LSL | SPLIT | FORWARD | P'1",
    "parameters": "name ; | name ( names ) ; value kinds",
    "value": " | VALUE names ;",
    "kinds": " | type names ; kinds | typed ARRAY names ; kinds",
    "subroutine": "typed SUBROUTINE parameters statement",
    "procedure": "typed PROCEDURE parameters body | typed PROCEDURE parameters OPTION SPLIT ; body"
                 " | typed PROCEDURE parameters OPTION FORWARD | typed PROCEDURE parameters OPTION EXTERNAL , SPLIT",
    "body": "RETURN | simple | BEGIN locals subroutines statements END",
    "statements": "statement | statement ; statements",
    "statement": " | simple | simple | name : statement | BEGIN statements END"
                 " | IF condition THEN statement | IF relation THEN statement"
                 " | IF condition THEN statement ELSE statement"
                 " | WHILE condition DO statement | DO statement UNTIL condition"
                 " | FOR name := expression step UNTIL expression DO statement"
                 " | CASE expression OF BEGIN statements END",
    "step": " | STEP expression",
    "simple": "RETURN | name | GO name | GO TO name | GOTO name | name ( list ) | target := expression"
              " | target := expression | target := effect | effect",
    "target": "name | @ name | element | element field",
    "element": "name | name ( expression )",
    "field": ".( constant : constant )",
    "effect": "MOVE element := 'AB' | MOVE element := element , ( expression ) | MOVE element := element WHILE class"
              " | SCAN element WHILE expression | SCAN element UNTIL expression",
    "class": "A | N | AN | AS | ANS",
    "relation": "= | <> | < | > | <= | >=",
    "condition": "expression | conjunct | conjunct OR condition",
    "conjunct": "comparison | comparison AND conjunct | exclusive AND conjunct",
    "comparison": "element relation element , ( expression )",
    "list": "expression | expression , list",
    "expression": "exclusive | exclusive | exclusive | exclusive AND expression | exclusive OR expression",
    "exclusive": "compared | compared | compared | compared LAND exclusive | compared LOR exclusive"
                 " | compared XOR exclusive",
    "compared": "sum | sum | sum relation sum",
    "sum": "term | term | + term | - term more",
    "more": " | + term more | - term more",
    "term": "shifted | shifted | shifted * term | shifted / term | shifted MOD term",
    "shifted": "unary | unary | unary | unary & shift ( constant )",
    "shift": "ASL | ASR | LSL | LSR | CSL | CSR",
    "unary": "primary | primary | primary | primary field | NOT unary",
    "primary": "number | name | 'X' | TRUE | name ( list ) | @ element | ( expression ) | type ( expression )",
}
ALTERNATIVES = {rule: [each.split() for each in re.split(r" \| ?", text)] for rule, text in RULES.items()}
MARKS = "( ) , ; : . = < > + - * / & @ # := <= >= <>".split()
COMMANDS = [
    "$PAGE", "$TITLE x", "$CONTROL USLINIT", "$CONTROL SEGMENT=A,SUBPROGRAM", "$CONTROL", "$CONTROL A=5 , B", "$PAGEX",
    "$control segment = b", "$CONTROL A=", "$CONTROL A B", "$ PAGE", "$CONTROL ABCDEFGHIJKLMNOP", "$CONTROL A=%5",
]


class Texts:
    def __init__(self, random, reserved):
        self.random = random
        wrong = ["65536", "4294967296D", "ABCDEFGHIJKLMNOP", "COMMENT", "<<"]
        self.any_token = sorted(reserved - {"COMMENT", "DEFINE"}) + MARKS + ["5", "3D", "'S'", "A", "B"] + wrong

    def part(self, rule, depth):
        """The tokens of one part; `.(` stands for two."""
        if rule not in ALTERNATIVES:
            return [".", "("] if rule == ".(" else [rule]
        alternatives = ALTERNATIVES[rule]
        chosen = alternatives[0] if depth <= 0 else self.random.choice(alternatives)
        return [token for each in chosen for token in self.part(each, depth - 1)]

    def nested(self):
        """A unit with about as many constructs open as may be."""
        count = self.random.randrange(55, 75)
        half = count // 2
        inside = self.part("statement", 6)
        return self.random.choice([
            lambda: ["A", ":="] + ["("] * count + ["1"] + [")"] * count,
            lambda: ["BEGIN"] * count + inside + ["END"] * count,
            lambda: ["L", ":"] * count + inside,
            lambda: ["IF", "A", "THEN"] * count + inside,
            lambda: ["A", ":="] + (["P", "(", "1"] + ["+", "1"] * 9 + ["+"]) * half + ["1"] + [")"] * half,
            lambda: ["A", ":=", "1"] + ["+", "1"] * (count * 8),
        ])()

    def broken(self, tokens):
        tokens = list(tokens)
        for _ in range(self.random.choice((1, 1, 1, 2, 3))):
            place = self.random.randrange(len(tokens))
            other = self.random.choice([self.random.choice(self.any_token), self.random.choice(tokens)])
            tokens[place:place + 1] = self.random.choice([[], [other], [other, tokens[place]], [tokens[place]] * 2])
            tokens = tokens or [other]
        return tokens[:self.random.randrange(len(tokens) + 1)] if self.random.random() < 0.1 else tokens

    def with_defines(self, tokens):
        """A DEFINE somewhere, now and then a wrong one, and uses of its names."""
        items = []
        for number in range(self.random.randrange(1, 4)):
            kept = [self.random.choice(self.any_token) for _ in range(self.random.randrange(4))]
            items += [f"T{number}", "=", *kept, "#", ","]
        define = ["DEFINE", *items[:-1], ";"]
        if self.random.random() < 0.3:
            define[self.random.randrange(len(define))] = self.random.choice(self.any_token + ["DEFINE"])
        place = self.random.randrange(len(tokens) + 1)
        tokens = tokens[:place] + define + tokens[place:]
        for _ in range(self.random.randrange(4)):
            tokens.insert(self.random.randrange(place, len(tokens) + 1), f"T{self.random.randrange(3)}")
        return tokens

    def blank(self):
        return self.random.choice([" "] * 6 + ["\n", "\t", "  ", "\r\n", " << c >> ", " COMMENT x;"])

    def joined(self, tokens):
        """With blanks where two tokens would be one, and elsewhere now and then."""
        text = ""
        for token in tokens:
            token = token.replace("'", '"') if token.startswith("'") else token
            seam = text[-1:] + token[0]
            one = re.fullmatch(r"[\w'%]{2}", seam) or seam in ('""', ":=", "<=", ">=", "<>", "<<")
            if one or self.random.random() < 0.3:
                text += self.blank()
            text += token.lower() if self.random.random() < 0.1 and token[0] != '"' else token
        return text

    def with_a_wrong_character(self, text):
        place = self.random.randrange(len(text) + 1)
        character = self.random.choice("!?$%\"'#<>;:=ABD059 \n\x01\x7f~\r")
        return text[:place] + character + text[place + self.random.randrange(2):]

    def with_a_command(self, text):
        lines = text.split("\n")
        lines.insert(self.random.randrange(len(lines) + 1), self.random.choice(COMMANDS))
        return "\n".join(lines)

    def next(self):
        chance = self.random.random
        deep = ["BEGIN", *self.nested(), "END", "."] if chance() < 0.15 else None
        tokens = deep or self.part("unit", self.random.randrange(6, 20))
        if chance() < 0.8:
            tokens = self.broken(tokens)
        if chance() < 0.15:
            tokens = self.with_defines(tokens)
        text = self.joined(tokens)
        if chance() < 0.15:
            text = self.with_a_wrong_character(text)
        if chance() < 0.1:
            text = self.with_a_command(text)
        return text
