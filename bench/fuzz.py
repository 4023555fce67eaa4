"""Random inputs for each command of nio: see fuzz.sh."""

import glob
import os
import random
import socket
import subprocess
import sys
import struct
import tempfile
import threading
import time

import loopback

PROGRAM = os.environ.get("NIO") or "crates/nio_cli/out/nio_cli"
# the statuses of each command on an input that can be read and an output that takes all
STATUSES = {"script": {0, 3, 9}, "check": {0, 3, 8, 9}, "check-1": {0, 3, 8, 9}, "race": {0, 3, 9}, "timed": {0, 3, 9},
            "words": {0, 2}}
# replies of a line behind `go` that waits for nobody: the calls that such a race text is made of
QUICK = ("keys", "selected", "valid", "interest", "ready", "iset", "ior", "iand", "cancel", "unselect", "attach", "wakeup")
WORDS = ("script", "check", "check-1", "race", "load", "proxy", "timed", "packets", "--way", "select", "group", "future",
         "many", "--listen", "--target", "--conns", "--workers", "192.0.2.1:9", "[::1]:9", "0", "1", "3", "-1",
         "99999999999999999999", "--help", "-h", "", "é", "--", "--way=select", "--way=group", "--way=future",
         "--way=many", "--workers=2", "--local", "--count", "--count=2")
# whole commands, of addresses that the machine doesn't have
AT = "192.0.2.1:9"
COMMANDS = (["proxy", "--way", "select", "--listen", AT, "--target", AT, "--conns", "3"],
            ["proxy", "--way", "future", "--listen", AT, "--target", AT, "--conns", "1"],
            ["proxy", "--way", "group", "--listen", AT, "--target", AT, "--conns", "3", "--workers", "2"],
            ["proxy", "--way", "many", "--listen", AT, "--target", AT, "--conns", "3", "--workers", "2"],
            ["packets", "--listen", AT, "--local", AT, "--target", AT, "--count", "3"], ["load", "3"])
# the ways of a proxy over loopback
WAYS = (["select"], ["future"], ["group", "--workers", "3"], ["many", "--workers", "3"])
SECONDS = 10


def texts(pattern):
    found = []
    for path in sorted(glob.glob(pattern)):
        with open(path, "rb") as file:
            found.append(file.read())
    return found


def bound():
    """A socket of packets on a port of its own."""
    link = socket.socket(socket.AF_INET, socket.SOCK_DGRAM)
    link.bind(("127.0.0.1", 0))
    link.settimeout(0.002)
    return link


def port(link):
    return link.getsockname()[1]


def is_part(some, whole):
    """Whether the first list is made of items of the second one, in their order."""
    left = iter(whole)
    return all(any(item == other for other in left) for item in some)


class Ends:
    """Two clients of a relay of packets, and its target: packets are sent again and again until the relay ends. On a busy
    machine the system drops some."""

    def __init__(self, packets):
        self.packets, self.ended = packets, False
        self.senders, self.target = [bound(), bound()], bound()
        with bound() as one, bound() as other:
            self.listen, self.local = port(one), port(other)
        self.sent, self.came, self.back = ([], []), [], ([], [])
        self.threads = [threading.Thread(target=work) for work in (self.send, self.answer)]
        for thread in self.threads:
            thread.start()

    def options(self):
        ports = {"--listen": self.listen, "--local": self.local, "--target": port(self.target)}
        return [word for name, at in ports.items() for word in (name, f"127.0.0.1:{at}")]

    def send(self):
        at = 0
        while not self.ended:
            who, packet = self.packets[at % len(self.packets)]
            self.senders[who].sendto(packet, ("127.0.0.1", self.listen))
            self.sent[who].append(packet)
            at += 1
            self.hear()

    def hear(self):
        for who, sender in enumerate(self.senders):
            try:
                while True:
                    self.back[who].append(sender.recv(65536))
            except TimeoutError:
                pass

    def answer(self):
        while True:
            try:
                packet, sender = self.target.recvfrom(65536)
            except TimeoutError:
                if self.ended:
                    return
                continue
            self.came.append(packet)
            if sender[1] == self.local:
                self.target.sendto(packet[::-1], sender)

    def end(self):
        self.ended = True
        for thread in self.threads:
            thread.join()
        self.hear()
        for link in (*self.senders, self.target):
            link.close()

    def fault(self, count, output):
        """What is wrong with what the relay wrote and passed on, or nothing: the packets of one sender alone, in their
        order, and the answers to them, in theirs."""
        words = output.split()
        if len(words) != 4 or words[:3] != [b"forth", b"%d" % count, b"back"] or len(self.came) > count:
            return f"{output!r} after {count} packets, of which {len(self.came)} came"
        for who in (0, 1):
            answers = [packet[::-1] for packet in self.came]
            if is_part(self.came, self.sent[who]) and is_part(self.back[who], answers) and not self.back[1 - who]:
                return None if len(self.back[who]) <= int(words[3]) else f"{output!r}, and more answers came back"
        return "other packets came, or came back"


def parts(text, count):
    """The bytes in so many parts of about one length."""
    size = len(text) // count + 1
    return [text[at * size : (at + 1) * size] for at in range(count)]


class Clients:
    """The clients of a proxy, and its target, which sends back what it reads. Each client sends one of these texts. One
    whose text begins with a byte below 64 breaks off then; each other one reads until the end."""

    def __init__(self, sent):
        self.sent, self.ended = sent, False
        self.back = [b""] * len(sent)
        self.target = socket.create_server((loopback.HOST, 0))
        self.target.settimeout(0.05)
        with socket.create_server((loopback.HOST, 0)) as free:
            self.listen = port(free)
        self.threads = [threading.Thread(target=self.send, args=(who,)) for who in range(len(sent))]
        self.threads.append(threading.Thread(target=self.answer))
        for thread in self.threads:
            thread.start()

    def options(self):
        return ["--listen", f"127.0.0.1:{self.listen}", "--target", f"127.0.0.1:{port(self.target)}"]

    def breaks_off(self, who):
        return self.sent[who][:1] != b"" and self.sent[who][0] < 64

    def send(self, who):
        link = loopback.connected(self.listen)
        if link is None:
            return
        with link:
            try:
                link.sendall(self.sent[who])
                if self.breaks_off(who):
                    link.setsockopt(socket.SOL_SOCKET, socket.SO_LINGER, struct.pack("ii", 1, 0))
                    return
                link.shutdown(socket.SHUT_WR)
                while some := link.recv(65536):
                    self.back[who] += some
            except OSError:
                pass

    def answer(self):
        while not self.ended:
            try:
                link, _ = self.target.accept()
            except TimeoutError:
                continue
            threading.Thread(target=loopback.answer, args=(link,), daemon=True).start()

    def end(self):
        self.ended = True
        for thread in self.threads:
            thread.join()
        self.target.close()

    def fault(self, output):
        """What is wrong with what the proxy wrote and carried, or nothing."""
        broken = sum(map(self.breaks_off, range(len(self.sent))))
        if output not in [b"served %d faults %d\n" % (len(self.sent), faults) for faults in range(broken + 1)]:
            return f"{output!r} where {broken} clients of {len(self.sent)} broke off"
        for who, sent in enumerate(self.sent):
            if not self.breaks_off(who) and self.back[who] != sent:
                return f"client {who} got other bytes back"
        return None


class Fuzz:
    def __init__(self, seed):
        self.random = random.Random(seed)
        self.scripts, self.histories = texts("examples/*.nio"), texts("examples/*.history")
        self.races, self.timed = texts("crates/nio_races/data/*.race"), texts("examples/*.timed")
        self.runs, self.wrong = 0, []

    def some_bytes(self):
        return bytes(self.random.randrange(256) for _ in range(self.random.randrange(200)))

    def changed(self, text):
        """The text with some of its bytes, words or lines changed, doubled, dropped or taken from elsewhere in it."""
        for _ in range(self.random.randrange(1, 5)):
            lines = text.split(b"\n")
            at, other = self.random.randrange(len(lines)), self.random.choice(lines)
            kind = self.random.randrange(7)
            if kind == 0:
                lines[at] = other
            elif kind == 1:
                lines.insert(at, other)
            elif kind == 2 and len(lines) > 1:
                del lines[at]
            elif kind == 3:
                words, others = lines[at].split(b" "), other.split(b" ")
                words[self.random.randrange(len(words))] = self.random.choice(others)
                lines[at] = b" ".join(words)
            elif kind == 4 and lines[at]:
                place = self.random.randrange(len(lines[at]))
                lines[at] = lines[at][:place] + bytes([self.random.randrange(256)]) + lines[at][place + 1 :]
            elif kind == 5:
                digits = str(self.random.choice([0, 1, 2, 63, 64, 255, 256, 1023, 1024, 2**32, 2**63, 2**64])).encode()
                lines[at] = lines[at].replace(self.random.choice([b"0", b"1"]), digits, 1)
            else:
                lines[at] = other.replace(b"t1", b"t%d" % self.random.randrange(66), 1)
            text = b"\n".join(lines)
        return text

    def ending_race(self):
        """A race text whose lines behind `go` wait for nobody."""
        setup = b"t1 selector\nt1 channel source\nt1 blocking c0 off\nt1 register s0 c0 1\ngo\n"
        lines = []
        for _ in range(self.random.randrange(1, 20)):
            word = self.random.choice(QUICK)
            end = {"keys": "s0", "selected": "s0", "wakeup": "s0", "iset": "s0 k0 1", "ior": "s0 k0 1", "iand": "s0 k0 0",
                   "attach": "s0 k0 7"}.get(word, "s0 k0")
            lines.append(f"t{self.random.randrange(4)} {word} {end}".encode())
        return self.changed(setup) if self.random.randrange(8) == 0 else setup + b"\n".join(lines)

    def some_words(self):
        """Words at random, or a whole command with up to two of its words changed, doubled or dropped."""
        if self.random.randrange(2) == 0:
            return [self.random.choice(WORDS) for _ in range(self.random.randrange(7))]
        words = list(self.random.choice(COMMANDS))
        for _ in range(self.random.randrange(3)):
            at, kind = self.random.randrange(len(words)), self.random.randrange(3)
            other = [[self.random.choice(WORDS)], [words[at], words[at]], []][kind]
            words[at : at + 1] = other
        return words

    def case(self):
        """A command, its words and its input."""
        kind = self.random.choice(["script", "script", "check", "check-1", "race", "timed", "words", "packets", "proxy"])
        if kind == "packets":
            return kind, [kind], b""
        if kind == "proxy":
            way, conns = self.random.choice(WAYS), self.random.randrange(1, 6)
            words = ["proxy", "--way", *way, "--conns", str(conns)]
            return kind, words, self.random.randbytes(self.random.choice([0, 10, 5_000, 200_000]))
        if kind == "words":
            return kind, self.some_words(), b""
        if self.random.randrange(6) == 0:
            return kind, [kind], self.some_bytes()
        if kind == "race":
            return kind, [kind], self.ending_race()
        bases = {"script": self.scripts, "timed": self.timed}.get(kind, self.histories)
        return kind, [kind], self.changed(self.random.choice(bases))

    def ran(self, words, text):
        return subprocess.run([PROGRAM, *words], input=text, stdout=subprocess.PIPE, stderr=subprocess.PIPE, timeout=SECONDS)

    def some_packets(self):
        """A few packets, each with which of two clients sends it."""
        sizes = [0, 1, 2, 1400, 65507, self.random.randrange(65508)]
        return [(self.random.randrange(2), self.random.randbytes(self.random.choice(sizes)))
                for _ in range(self.random.randrange(1, 6))]

    def relay_fault(self):
        """What is wrong with a run of a relay of packets, or nothing."""
        ends, count = Ends(self.some_packets()), self.random.randrange(1, 6)
        try:
            done = self.ran(["packets", *ends.options(), "--count", str(count)], b"")
        finally:
            ends.end()
        if done.stderr or done.returncode != 0:
            return f"status {done.returncode}, to standard error {done.stderr!r}"
        return ends.fault(count, done.stdout)

    def proxy_fault(self, words, text):
        """What is wrong with a run of a proxy, or nothing. Its clients share the text."""
        clients = Clients(parts(text, int(words[-1])))
        try:
            done = self.ran([*words, *clients.options()], b"")
        finally:
            clients.end()
        if done.stderr or done.returncode != 0:
            return f"status {done.returncode}, to standard error {done.stderr!r}"
        return clients.fault(done.stdout)

    def fault(self, kind, words, text):
        """What is wrong with a run, or nothing."""
        self.runs += 1
        if kind in {"packets", "proxy"}:
            try:
                return self.relay_fault() if kind == "packets" else self.proxy_fault(words, text)
            except subprocess.TimeoutExpired:
                return "it didn't end"
        try:
            done = self.ran(words, text)
        except subprocess.TimeoutExpired:
            return "it didn't end"
        if done.stderr:
            return "it wrote to standard error"
        if kind == "words" and words[:1] in (["proxy"], ["packets"]):
            return None if done.returncode in {2, 7} else f"status {done.returncode}"
        if kind == "words" and words[:1] and words[0] in STATUSES and len(words) == 1:
            kind = words[0]
        if done.returncode not in STATUSES[kind]:
            return f"status {done.returncode}"
        if kind == "script" and done.returncode == 0:
            judged = self.ran(["check"], done.stdout)
            if judged.returncode != 0 or not judged.stdout.startswith(b"legal "):
                return f"check finds what it wrote {judged.stdout!r}"
        return None

    def run(self, seconds):
        end = time.monotonic() + seconds
        while time.monotonic() < end:
            kind, words, text = self.case()
            if kind == "race" and b" block " in text:
                continue
            why = self.fault(kind, words, text)
            if why:
                kept = tempfile.NamedTemporaryFile(prefix=f"nio-fuzz-{kind}-", delete=False)
                kept.write(text)
                kept.close()
                self.wrong.append(f"{why}: {' '.join(map(repr, words))} < {kept.name}")


def main(words):
    seed = int(words[1]) if len(words) > 1 else random.SystemRandom().randrange(2**32)
    print(f"seed {seed}", flush=True)
    fuzz = Fuzz(seed)
    fuzz.run(float(words[0]))
    for line in fuzz.wrong:
        print(f"WRONG: {line}")
    print(f"{fuzz.runs} runs, {len(fuzz.wrong)} wrong")
    return 1 if fuzz.wrong else 0


if __name__ == "__main__":
    sys.exit(main(sys.argv[1:]))
