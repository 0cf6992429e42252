"""What stands below the markup in the restricted XML: classes of bytes, characters, references, words that stand fixed.

A state is a method that takes a byte and gives the next state, or None where the byte leaves no way to the end
(document 01, "The restricted XML"). `reader_machine` adds the states of the markup.
"""

WHITE_SPACE = frozenset(b" \t\r\n")
LEGAL_ASCII = frozenset(range(0x20, 0x80)) | WHITE_SPACE
DECIMAL_DIGITS = {digit: value for value, digit in enumerate(b"0123456789")}
HEX_DIGITS = {**DECIMAL_DIGITS, **{digit: value for value, digit in enumerate(b"abcdef", 10)},
              **{digit: value for value, digit in enumerate(b"ABCDEF", 10)}}
LAST_CHARACTER = 0x10FFFF
LEGAL_OF_LENGTH = {1: ((9, 10), (13, 13), (0x20, 0x7F)), 2: ((0x80, 0x7FF),), 3: ((0x800, 0xD7FF), (0xE000, 0xFFFD)),
                   4: ((0x10000, LAST_CHARACTER),)}
REFERENCE_NAMES = (b"amp;", b"lt;", b"gt;", b"apos;", b"quot;")


def any_legal(length, low, high):
    """Is there a legal character from `low` to `high` whose UTF-8 form has this length?"""
    return any(low <= last and first <= high for first, last in LEGAL_OF_LENGTH[length])


def is_legal(character):
    return any(any_legal(length, character, character) for length in LEGAL_OF_LENGTH)


class Characters:
    # Words that stand fixed, in the declaration and in references.

    def spell(self, words, then):
        self.words, self.then = words, then
        return self.spelling

    def spelling(self, byte):
        self.words = [word[1:] for word in self.words if word[0] == byte]
        if not self.words:
            return None
        return self.then if b"" in self.words else self.spelling

    # Characters and references.

    def character_or_reference(self, byte, then):
        if byte in b"&":
            self.then_after_reference = then
            return self.reference
        return self.character(byte, then)

    def character(self, byte, then):
        """The first byte of a character; the bytes C0 to F7 say how many follow, 80 to BF and F8 to FF say nothing."""
        if byte < 0x80:
            return then if byte in LEGAL_ASCII else None
        for self.length, first, bits in ((2, 0xC0, 5), (3, 0xE0, 4), (4, 0xF0, 3)):
            if first <= byte < first + (1 << bits):
                self.then_after_character = then
                self.missing = self.length - 1
                self.number = byte - first
                return self.character_begun()
        return None

    def character_begun(self):
        """Alive if a legal character is among those that the missing bytes can still make."""
        low = self.number << 6 * self.missing
        if not any_legal(self.length, low, low + (1 << 6 * self.missing) - 1):
            return None
        return self.character_byte if self.missing else self.then_after_character

    def character_byte(self, byte):
        if not 0x80 <= byte < 0xC0:
            return None
        self.number = self.number << 6 | byte - 0x80
        self.missing -= 1
        return self.character_begun()

    def reference(self, byte):
        if byte in b"#":
            self.digits, self.base, self.number = DECIMAL_DIGITS, 10, 0
            return self.number_kind
        self.spell(REFERENCE_NAMES, self.then_after_reference)
        return self.spelling(byte)

    def number_kind(self, byte):
        if byte in b"x":
            self.digits, self.base = HEX_DIGITS, 16
            return self.first_digit
        return self.first_digit(byte)

    def first_digit(self, byte):
        if byte not in self.digits:
            return None
        self.number = self.number * self.base + self.digits[byte]
        return self.number_digits if self.number <= LAST_CHARACTER else None

    def number_digits(self, byte):
        if byte in b";":
            return self.then_after_reference if is_legal(self.number) else None
        return self.first_digit(byte)
