"""What crates/sheet_cases writes of an answer: lines of words and numbers, digests and listings, by the model of tests/sheets.py."""
from sheets import Refused, check, convert, fee_row, fetch, insert, listing, read

PAST = 170


class Words:
    """What the program has written so far, and how it writes what the calls answer."""

    def __init__(self):
        self.out = b""

    def say(self, text):
        self.out += text.encode() if isinstance(text, str) else bytes(text)

    def say_digest(self, data):
        digest = 0
        for byte in data:
            digest = (digest * 31 + byte) % 2**32
        self.say("digest %d\n" % digest)

    def tell(self, word, call, otherwise=None):
        """A line of a word and what a call answers, or its refusal."""
        try:
            answer = call()
        except Refused as r:
            self.say("refused %d\n" % r.args[0])
            return otherwise
        self.say("%s %s\n" % (word, answer))
        return answer

    def tell_added(self, buffer, length, number, outline, fee=None):
        fee = fee_row(number) if fee is None else fee
        return self.tell("length", lambda: insert(buffer, length, number, *outline, fee), length)

    def converted_to(self, buffer, length, second, room):
        """The length of a sheet that is converted into the first bytes of a second buffer; 0 after a refusal."""
        lent = second[:room]
        made = self.tell("length", lambda: convert(buffer, length, lent), 0)
        second[:room] = lent
        return made

    def tell_converted(self, buffer, length, room=240):
        second = bytearray([PAST] * 240)
        made = self.converted_to(buffer, length, second, room)
        self.say_digest(second)
        return made

    def say_record(self, word, call):
        def line():
            number, i, j, n, fee = call()
            return " ".join(str(v) for v in [number, i, j] + n + [fee])

        self.tell(word, line)

    def say_fetched(self, buffer, length, *places):
        for k in places:
            self.say_record("record", lambda: fetch(buffer, length, k))

    def say_read(self, buffer, length, k):
        self.say_record("read", lambda: read(buffer, length, k))

    def say_both(self, buffer, length, *places):
        for k in places:
            self.say_fetched(buffer, length, k)
            self.say_read(buffer, length, k)

    def say_checked(self, buffer, length):
        self.tell("count", lambda: len(check(buffer, length)))

    def show(self, buffer, length):
        self.say(listing(buffer, length))

    def show_digest(self, buffer, length):
        text = listing(buffer, length).encode()
        self.say("listing %d\n" % len(text))
        self.say_digest(text)

    def say_kept(self, buffer, end):
        while end < len(buffer) and buffer[end] == PAST:
            end += 1
        self.say("kept %d\n" % end)
