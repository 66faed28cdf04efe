#!/usr/bin/env python3
"""The link and its console, as docs/RULES.md and docs/CONSOLE.md have them, in plain Python.

To compare the program with: it shares no code, no table and no data with it.
    reference.py [FILE]      answers the commands of FILE, or of standard input
The status is 1 if some line was an error, as the program's is. The text after 'error LINE:' is its own.
"""
import string
import sys

LAYERS = {"line": range(1, 4), "frame": range(4, 8), "link": range(8, 14), "user": range(14, 25)}


class Refusal(Exception):
    def __init__(self, number, place=0):
        self.number, self.place = number, place

    def __str__(self):
        layer = next(name for name, numbers in LAYERS.items() if self.number in numbers)
        return f"refused {self.number} {layer} {self.place}"


def ensure(holds, number, place=0):
    if not holds:
        raise Refusal(number, place)


# A content is ("single",), ("fixed", C, A) or ("variable", C, A, [octets]).


class Ft12:
    name, width, longest, digits = "ft12", 11, 72, 3

    @staticmethod
    def symbol(octet):
        return octet << 1 | (bin(octet).count("1") & 1) << 9 | 1 << 10

    @staticmethod
    def broken(s):
        return s > 2047 or s & 1 or bin(s >> 1 & 0x1FF).count("1") & 1 or not s >> 10 & 1

    @classmethod
    def frame(cls, content):
        kind, *rest = content
        if kind == "single":
            octets = [0xE5]
        elif kind == "fixed":
            octets = [0x10, *rest, sum(rest) % 256, 0x16]
        else:
            c, a, user = rest
            length = len(user) + 2
            octets = [0x68, length, length, 0x68, c, a, *user, (c + a + sum(user)) % 256, 0x16]
        return [cls.symbol(o) for o in octets]

    @classmethod
    def body(cls, burst):
        o = [s >> 1 & 0xFF for s in burst]
        n = len(o)
        ensure(o[0] in (0xE5, 0x10, 0x68), 4, 0)
        if o[0] == 0xE5:
            ensure(n == 1, 5, n)
            return ("single",)
        if o[0] == 0x10:
            ensure(n == 5, 5, n)
            first, content = 1, ("fixed", o[1], o[2])
        else:
            ensure(n >= 4, 5, n)
            ensure(3 <= o[1] <= 66, 5, 1)
            ensure(o[2] == o[1], 5, 2)
            ensure(o[3] == 0x68, 5, 3)
            ensure(n == o[1] + 6, 5, n)
            first, content = 4, ("variable", o[4], o[5], o[6:-2])
        ensure(o[-2] == sum(o[first:-2]) % 256, 6, n - 2)
        ensure(o[-1] == 0x16, 7, n - 1)
        return content


class Ft3:
    name, width, longest, digits = "ft3", 8, 79, 2
    generator = sum(1 << k for k in (16, 13, 12, 11, 10, 8, 6, 5, 2, 0))

    @classmethod
    def check(cls, block):
        """The check octets of a block, by long division of whole numbers."""
        rest = int.from_bytes(bytes(block), "big") << 16
        while rest.bit_length() > 16:
            rest ^= cls.generator << (rest.bit_length() - 17)
        return list((rest ^ 0xFFFF).to_bytes(2, "big"))

    @staticmethod
    def broken(s):
        return s > 255

    @classmethod
    def frame(cls, content):
        kind, *rest = content
        if kind == "single":
            return [0x12, 0x3D]
        c, a, user = (*rest, []) if kind == "fixed" else rest
        header = [len(user) + 2 if user else 0, c, a]
        symbols = [0x05, 0x64, *header, *cls.check(header)]
        for at in range(0, len(user), 16):
            block = user[at:at + 16]
            symbols += block + cls.check(block)
        return symbols

    @classmethod
    def body(cls, burst):
        o, n = burst, len(burst)
        ensure(o[0] in (0x05, 0x12), 4, 0)
        ensure(n > 1 and o[1] == {0x05: 0x64, 0x12: 0x3D}[o[0]], 4, 1)
        if o[0] == 0x12:
            ensure(n == 2, 5, n)
            return ("single",)
        ensure(n >= 7, 5, n)
        ensure(o[5:7] == cls.check(o[2:5]), 6, 5)
        length = o[2]
        ensure(length == 0 or 3 <= length <= 66, 5, 2)
        left = max(length - 2, 0)
        ensure(n == 7 + left + 2 * ((left + 15) // 16), 5, n)
        user, at = [], 7
        while left:
            size = min(left, 16)
            block = o[at:at + size]
            ensure(o[at + size:at + size + 2] == cls.check(block), 6, at + size)
            user += block
            at += size + 2
            left -= size
        return ("variable", o[3], o[4], user) if length else ("fixed", o[3], o[4])


def read(format, burst):
    ensure(burst, 1)
    ensure(len(burst) <= format.longest, 2)
    for place, symbol in enumerate(burst):
        ensure(not format.broken(symbol), 3, place)
    content = format.body(burst)
    assert format.frame(content) == burst, "read accepts exactly the frames"
    return content


def write(format, content, buffer):
    ensure(buffer >= format.longest, 20)
    ensure(content[0] != "variable" or 1 <= len(content[3]) <= 64, 15)
    frame = format.frame(content)
    assert 1 <= len(frame) <= format.longest and all(0 <= s < 1 << format.width for s in frame)
    assert read(format, frame) == content
    return frame


# ---- the two ends


class Queue:
    def __init__(self, slots):
        self.slots, self.records = slots, []

    def full(self):
        return len(self.records) >= self.slots

    def put(self, record):
        ensure(not self.full(), 21)
        self.records.append(record)

    def take(self):
        ensure(self.records, 22)
        return self.records.pop(0)


class Reader:
    def __init__(self, format, address, class1, class2, inbox):
        ensure(1 <= address <= 32, 14)
        ensure(all(1 <= n <= 256 for n in (class1, class2, inbox)), 24)
        self.format, self.address = format, address
        self.classes, self.inbox = {1: Queue(class1), 2: Queue(class2)}, Queue(inbox)
        self.set, self.expected, self.stored, self.out = False, 0, None, None

    def offer(self, class_, octets):
        ensure(1 <= len(octets) <= 64, 15)
        ensure(class_ in (1, 2), 16)
        self.classes[class_].put(octets)

    def restart(self):
        out, self.out = self.out, None
        self.set, self.stored = False, None
        return None if out is None else ("doubtful", out)

    def says(self, code, octets=None):
        acd, dfc = bool(self.classes[1].records), self.inbox.full()
        if code in (0, 9) and not acd and not dfc:
            return ("single",)
        control = acd << 5 | dfc << 4 | code
        return ("variable", control, self.address, octets) if octets else ("fixed", control, self.address)

    def hear(self, burst, buffer):
        """The answer's content, what was taken, the mark with its message, and the class handed out."""
        ensure(buffer >= self.format.longest, 20)
        kind, *rest = read(self.format, burst)
        ensure(kind != "single" and rest[0] & 0x40, 8)
        control, address, *user = rest
        ensure(address == self.address, 9)
        ensure(not control & 0x80, 10)
        code, fcv, fcb = control & 15, control >> 4 & 1, control >> 5 & 1
        if code not in (0, 3, 9, 10, 11):
            return self.says(15), None, None, None
        ensure(fcv == (code in (3, 10, 11)), 10)
        ensure((kind == "variable") == (code == 3), 10)
        if code == 0:
            mark = self.restart()
            self.set, self.expected = True, 1
            return self.says(0), None, mark, None
        if code == 9:
            return self.says(11), None, None, None
        ensure(self.set, 11)
        if fcb != self.expected:
            ensure(self.stored is not None, 12)
            return self.stored, None, None, None
        mark, self.out = (None if self.out is None else ("settled", self.out)), None
        self.expected ^= 1
        taken = handed = None
        if code == 3 and self.inbox.full():
            self.stored = self.says(1)
        elif code == 3:
            taken = user[0]
            self.inbox.put(taken)
            self.stored = self.says(0)
        else:
            queue = self.classes[code - 9]
            if queue.records:
                self.out, handed = queue.take(), code - 9
                self.stored = self.says(8, self.out)
            else:
                self.stored = self.says(9)
        return self.stored, taken, mark, handed


class Concentrator:
    def __init__(self, format, repetitions, reports, arrivals):
        ensure(repetitions <= 7, 23)
        ensure(all(1 <= n <= 256 for n in (reports, arrivals)), 24)
        self.format, self.repetitions = format, repetitions
        self.reports, self.arrivals = Queue(reports), Queue(arrivals)
        self.links = {a: [False, 0] for a in range(1, 33)}
        self.exchange = None

    def request(self, service, station, buffer, octets=None, class_=None):
        ensure(buffer >= self.format.longest, 20)
        ensure(1 <= station <= 32, 14)
        ensure(service != "send" or 1 <= len(octets) <= 64, 15)
        ensure(service != "poll" or class_ in (1, 2), 16)
        ensure(self.exchange is None, 17)
        link = self.links[station]
        ensure(service in ("reset", "status") or link[0], 18)
        ensure(not self.reports.full() and not (service == "poll" and self.arrivals.full()), 19)
        counted = 0x50 | link[1] << 5
        content = {"reset": ("fixed", 0x40, station), "status": ("fixed", 0x49, station),
                   "send": ("variable", counted | 3, station, octets),
                   "poll": ("fixed", counted | 9 + (class_ or 0), station)}[service]
        if service == "reset":
            link[0] = False
        self.exchange = {"station": station, "service": service, "content": content, "made": 1}
        return content

    def close(self, outcome, acd, dfc):
        exchange, self.exchange = self.exchange, None
        self.reports.put((exchange["station"], exchange["service"], outcome, acd, dfc, exchange["made"]))
        return exchange

    def time_out(self, buffer):
        """The content sent again, or None at doubt."""
        ensure(buffer >= self.format.longest, 20)
        ensure(self.exchange is not None, 13)
        if self.exchange["made"] <= self.repetitions:
            self.exchange["made"] += 1
            return self.exchange["content"]
        self.links[self.exchange["station"]][0] = False
        self.close("doubtful", 0, 0)
        return None

    def hear(self, burst):
        kind, *rest = read(self.format, burst)
        ensure(self.exchange is not None, 13)
        station, service = self.exchange["station"], self.exchange["service"]
        link, control = self.links[station], 0
        if kind == "single":
            code = {"reset": 0, "send": 0, "poll": 9}.get(service)
        else:
            control, address = rest[:2]
            ensure(not control & 0x40, 8)
            ensure(address == station, 9)
            ensure(not control & 0x80, 10)
            code = control & 15
            ensure((kind == "variable") == (code == 8), 10)
        outcome = "not served" if code in (14, 15) else {
            ("reset", 0): "done", ("reset", 1): "busy", ("status", 11): "done", ("send", 0): "confirmed",
            ("send", 1): "busy", ("poll", 8): "data", ("poll", 9): "none"}.get((service, code))
        ensure(outcome is not None, 10)
        if outcome == "not served":
            link[0] = False
        elif service == "reset":
            link[:] = [True, 1] if outcome == "done" else [False, link[1]]
        elif service != "status":
            link[1] ^= 1
        if outcome == "data":
            self.arrivals.put((station, rest[2]))
        self.close(outcome, control >> 5 & 1, control >> 4 & 1)
        return outcome

    def survey(self, places):
        ensure(places >= 32, 20)
        return [a for a in range(1, 33) if self.links[a][0]]


# ---- a whole line, with its books


class NotAllowed(Exception):
    pass


class Error(Exception):
    pass


class Site:
    def __init__(self, format, repetitions, reports, arrivals):
        self.format = format
        self.concentrator = Concentrator(format, repetitions, reports, arrivals)
        self.readers, self.books, self.bursts, self.started = {}, {}, [], False

    def join(self, address, class1, class2, inbox):
        if self.started or address in self.readers:
            raise Error("too late, or the address is taken")
        self.readers[address] = Reader(self.format, address, class1, class2, inbox)
        self.books[address] = {"sends": [], "inbox": [], "offers": [], "arrivals": [], "waiting": {1: [], 2: []}, "out": 0}

    def reader(self, address):
        if address not in self.readers:
            raise Error(f"no reader {address}")
        return self.readers[address]

    def write(self, content, number):
        symbols = self.format.frame(content)
        self.bursts.append({"symbols": symbols, "number": number, "ends": {0, *self.readers}})
        return f"burst {len(self.bursts)}:" + "".join(f" {s:0{self.format.digits}X}" for s in symbols)

    def number_to(self, station):
        return len(self.books[station]["sends"]) if station in self.books else 0

    def request(self, service, station, buffer, octets=None, class_=None):
        self.started = True
        content = self.concentrator.request(service, station, buffer, octets, class_)
        if service == "send" and station in self.books:
            self.books[station]["sends"].append("open")
        return self.write(content, self.number_to(station))

    def ended(self, exchange, outcome, number):
        station = exchange["station"]
        if station in self.books:
            if exchange["service"] == "send":
                self.books[station]["sends"][-1] = outcome
            if outcome == "data":
                self.books[station]["arrivals"].append(number)

    def time_out(self, buffer):
        if any(b["ends"] for b in self.bursts):
            raise NotAllowed("the line is not silent")
        self.started = True
        exchange = self.concentrator.exchange
        content = self.concentrator.time_out(buffer)
        if content is None:
            self.ended(exchange, "doubtful", 0)
            return "doubtful"
        return self.write(content, self.number_to(exchange["station"]))

    def arriving(self, end, k, damage):
        if not 1 <= k <= len(self.bursts) or end not in self.bursts[k - 1]["ends"]:
            raise NotAllowed("not on the way to that end")
        burst, (cut, flips) = self.bursts[k - 1], damage
        symbols = list(burst["symbols"])
        if cut is not None:
            if cut >= len(symbols):
                raise Error("nothing is cut")
            symbols = symbols[:cut]
        for place, bit in flips:
            if place >= len(symbols) or bit >= self.format.width:
                raise Error("a flip outside")
        if len(set(flips)) < len(flips):
            raise Error("a flip twice")
        if len(flips) > 3:
            raise NotAllowed("beyond the guard")
        for place, bit in flips:
            symbols[place] ^= 1 << bit
        self.started = True
        burst["ends"].discard(end)
        return symbols, burst["number"]

    def hear_concentrator(self, k, damage):
        symbols, number = self.arriving(0, k, damage)
        exchange = self.concentrator.exchange
        outcome = self.concentrator.hear(symbols)
        self.ended(exchange, outcome, number)
        return outcome

    def marked(self, address, mark):
        if mark is not None:
            books = self.books[address]
            books["offers"][books["out"] - 1] = mark[0]
        return marked_text(mark)

    def hear_reader(self, address, k, damage, buffer):
        reader = self.reader(address)
        symbols, number = self.arriving(address, k, damage)
        content, taken, mark, handed = reader.hear(symbols, buffer)
        books = self.books[address]
        if taken is not None:
            books["inbox"].append(number)
        text = (" taken" if taken is not None else "") + self.marked(address, mark)
        if handed:
            books["out"] = books["waiting"][handed].pop(0)
            books["offers"][books["out"] - 1] = "out"
        return self.write(content, books["out"]) + text

    def lose(self, end, k):
        if not 1 <= k <= len(self.bursts) or end not in self.bursts[k - 1]["ends"]:
            raise NotAllowed("not on the way to that end")
        self.bursts[k - 1]["ends"].discard(end)
        return "lost"

    def quiet(self):
        for burst in self.bursts:
            burst["ends"].clear()
        return "quiet"

    def offer(self, address, class_, octets):
        reader = self.reader(address)
        self.started = True
        reader.offer(class_, octets)
        books = self.books[address]
        books["offers"].append("waiting")
        books["waiting"][class_].append(len(books["offers"]))
        return "offered"

    def account(self):
        if not self.readers:
            return "no readers"
        lines = []
        for a in sorted(self.readers):
            books, reader = self.books[a], self.readers[a]
            link = self.concentrator.links[a]
            numbered = {name: "".join(f" #{n} {state}" for n, state in enumerate(books[name], 1)) for name in ("sends", "offers")}
            listed = {name: "".join(f" #{n}" for n in books[name]) for name in ("inbox", "arrivals")}
            lines += [f"{a} sends:{numbered['sends']}", f"{a} inbox:{listed['inbox']}", f"{a} offers:{numbered['offers']}",
                      f"{a} arrivals:{listed['arrivals']}",
                      f"{a} link: concentrator {state(*link)}, reader {state(reader.set, reader.expected)}"]
        return "\n".join(lines)


def state(is_set, bit):
    return f"set {bit}" if is_set else "unset"


def octets_text(octets):
    return "".join(f" {o:02X}" for o in octets)


def marked_text(mark):
    return "" if mark is None else f" {mark[0]}:{octets_text(mark[1])}"


def report_text(report):
    return "report {} {} {} acd {} dfc {} sent {}".format(*report)


# ---- the console


def number(word, digits, most):
    if not word or any(d not in digits for d in word):
        raise Error(f"not a number: {word}")
    value = int(word, 16 if len(digits) > 10 else 10)
    if value > most:
        raise Error(f"out of range: {word}")
    return value


def decimal(word):
    return number(word, string.digits, 65535)


def decimals(words, count):
    if len(words) != count:
        raise Error("usage")
    return [decimal(w) for w in words]


def hexadecimal(words, most):
    if len(words) > 4096:
        raise Error("more than 4096 octets or symbols")
    return [number(w, string.hexdigits, most) for w in words]


def damage_of(words):
    cut, flips = None, []
    if words and words[0] == "cut":
        if len(words) < 2:
            raise Error("usage")
        cut, words = decimal(words[1]), words[2:]
    if words:
        if words[0] != "flip" or len(words) < 2:
            raise Error("usage")
        for word in words[1:]:
            if word.count(":") != 1:
                raise Error("usage")
            flips.append(tuple(decimal(w) for w in word.split(":")))
    return cut, flips


class Console:
    def __init__(self):
        self.format, self.buffer = Ft12, Ft12.longest
        self.bench_reader = self.bench_concentrator = self.site = None

    def frame(self, content, format):
        symbols = format.frame(content)
        return f"frame {len(symbols)}:" + "".join(f" {s:0{format.digits}X}" for s in symbols)

    def answer(self, words):
        command, *rest = words
        if command == "format" and len(rest) == 1 and rest[0] in ("ft12", "ft3"):
            self.format = {"ft12": Ft12, "ft3": Ft3}[rest[0]]
            self.buffer = self.format.longest
            return f"format {self.format.name}"
        if command == "buffer" and len(rest) == 1:
            self.buffer = decimal(rest[0])
            return f"buffer {self.buffer}"
        if command == "write" and rest:
            return self.write(rest[0], rest[1:])
        if command == "read":
            return self.told(read(self.format, hexadecimal(rest, 0xFFFF)))
        if command == "bench" and rest:
            return self.bench(rest[0], rest[1:])
        if command == "r" and rest:
            return self.reader_call(rest[0], rest[1:])
        if command == "c" and rest:
            return self.concentrator_call(rest[0], rest[1:])
        if command == "site":
            self.site = Site(self.format, *decimals(rest, 3))
            return "site"
        return self.site_call(command, rest)

    def write(self, kind, words):
        octets = hexadecimal(words, 0xFF) if kind in ("single", "fixed", "variable") else []
        if kind == "single" and not octets:
            content = ("single",)
        elif kind == "fixed" and len(octets) == 2:
            content = ("fixed", *octets)
        elif kind == "variable" and len(octets) >= 2:
            content = ("variable", *octets[:2], octets[2:])
        else:
            raise Error("usage of write")
        write(self.format, content, self.buffer)
        return self.frame(content, self.format)

    @staticmethod
    def told(content):
        kind, *rest = content
        if kind == "single":
            return "single"
        text = f"{kind} {rest[0]:02X} {rest[1]:02X}"
        return text if kind == "fixed" else text + ":" + octets_text(rest[2])

    def bench(self, which, words):
        if which == "reader":
            plan = decimals(words, 4)
            self.bench_reader = Reader(self.format, *plan)
            return f"bench reader {plan[0]}"
        if which == "concentrator":
            self.bench_concentrator = Concentrator(self.format, *decimals(words, 3))
            return "bench concentrator"
        raise Error("usage of bench")

    def reader_call(self, call, words):
        if call not in ("hear", "offer", "collect", "restart"):
            raise Error("usage of r")
        symbols = hexadecimal(words, 0xFFFF) if call == "hear" else []
        if call == "offer" and words:
            class_, octets = decimal(words[0]), hexadecimal(words[1:], 0xFF)
        elif call == "offer" or call in ("collect", "restart") and words:
            raise Error("usage of r")
        reader = self.bench_reader
        if reader is None:
            raise Error("no reader on the bench")
        if call == "hear":
            content, taken, mark, _ = reader.hear(symbols, self.buffer)
            return self.frame(content, reader.format) + (" taken" if taken is not None else "") + marked_text(mark)
        if call == "offer":
            reader.offer(class_, octets)
            return "offered"
        if call == "collect":
            return "message:" + octets_text(reader.inbox.take())
        return "restarted" + marked_text(reader.restart())

    def concentrator_call(self, call, words):
        parsed = self.parse_concentrator(call, words)
        c = self.bench_concentrator
        if c is None:
            raise Error("no concentrator on the bench")
        if call in ("reset", "status", "send", "poll"):
            return self.frame(c.request(call, parsed[0], self.buffer, *parsed[1:]), c.format)
        if call == "timeout":
            content = c.time_out(self.buffer)
            return "doubtful" if content is None else self.frame(content, c.format)
        if call == "hear":
            return c.hear(parsed)
        return self.fetch_or_survey(c, call, parsed)

    def parse_concentrator(self, call, words):
        if call in ("reset", "status"):
            return decimals(words, 1)
        if call == "send" and words:
            return [decimal(words[0]), hexadecimal(words[1:], 0xFF)]
        if call == "poll":
            station, class_ = decimals(words, 2)
            return [station, None, class_]
        if call == "timeout" and not words:
            return []
        if call == "hear":
            return hexadecimal(words, 0xFFFF)
        if call == "fetch" and words in (["report"], ["arrival"]):
            return words[0]
        if call == "survey" and len(words) <= 1:
            return decimal(words[0]) if words else 32
        raise Error("unknown command")

    @staticmethod
    def fetch_or_survey(c, call, parsed):
        if call == "survey":
            return "set:" + "".join(f" {a}" for a in c.survey(parsed))
        if parsed == "report":
            return report_text(c.reports.take())
        station, octets = c.arrivals.take()
        return f"arrival {station}:" + octets_text(octets)

    def site_call(self, command, words):
        known = ("reader", "reset", "status", "send", "poll", "timeout", "hear", "lose", "quiet", "offer", "collect",
                 "restart", "fetch", "survey", "account")
        if command not in known:
            raise Error("unknown command")
        if command in ("reset", "status", "send", "poll", "timeout", "fetch", "survey"):
            parsed = self.parse_concentrator(command, words)
        elif command == "reader":
            parsed = decimals(words, 4)
        elif command in ("hear", "lose"):
            if len(words) < 2 or command == "lose" and len(words) > 2:
                raise Error("usage")
            end = 0 if words[0] == "concentrator" else decimal(words[0])
            parsed = [words[0], end, decimal(words[1]), damage_of(words[2:])]
        elif command == "offer":
            if len(words) < 2:
                raise Error("usage")
            parsed = [decimal(words[0]), decimal(words[1]), hexadecimal(words[2:], 0xFF)]
        elif command in ("collect", "restart"):
            parsed = decimals(words, 1)
        elif words:
            raise Error("usage")
        site = self.site
        if site is None:
            raise Error("no site")
        if command in ("reset", "status", "send", "poll"):
            return site.request(command, parsed[0], self.buffer, *parsed[1:])
        if command == "timeout":
            return site.time_out(self.buffer)
        if command == "reader":
            site.join(*parsed)
            return f"reader {parsed[0]}"
        if command == "hear":
            if parsed[0] == "concentrator":
                return site.hear_concentrator(*parsed[2:])
            site.reader(parsed[1])
            return site.hear_reader(*parsed[1:], self.buffer)
        if command == "lose":
            if parsed[0] != "concentrator":
                site.reader(parsed[1])
            return site.lose(parsed[1], parsed[2])
        if command == "offer":
            return site.offer(*parsed)
        if command in ("collect", "restart"):
            reader = site.reader(parsed[0])
            site.started = True
            if command == "collect":
                return "message:" + octets_text(reader.inbox.take())
            return "restarted" + site.marked(parsed[0], reader.restart())
        if command in ("fetch", "survey"):
            site.started = True
            return self.fetch_or_survey(site.concentrator, command, parsed)
        return site.quiet() if command == "quiet" else site.account()


def main():
    source = open(sys.argv[1]) if len(sys.argv) > 1 else sys.stdin
    console, failed = Console(), False
    for line, text in enumerate(source, 1):
        words = text.rstrip("\n").split("#", 1)[0].replace("\t", " ").split(" ")
        words = [w for w in words if w]
        if not words:
            continue
        try:
            print(console.answer(words))
        except Refusal as refusal:
            print(refusal)
        except NotAllowed as why:
            print(f"not allowed: {why}")
        except Error as why:
            failed = True
            print(f"error {line}: {why}")
    return failed


if __name__ == "__main__":
    sys.exit(main())
