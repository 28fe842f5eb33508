"""Kills of the built program in journal mode, cuts of the power, and what is read behind them.

A course is one image and a row of sessions on it. In a session lines are given to the program one by one, and each
block that they write holds its own number. The session ends by a kill: at a chosen call of the system where there is
a tracer, else at any moment. Then the image is opened again, and what is read must be the blocks after some of the
writes in their order: all that were flushed, and none that was not begun. A cut of the power is made from what a
tracer logged: each sector holds what it held at the last sync, or what was written since.
"""
import random
import signal
import subprocess
import tempfile
import threading
import time

from journal_program import (CALLS, SECONDS, SECTOR, blocks_of_text, change, content_of, events_of, log_to,
                             read_all, read_file, runs_of, write_file)

KILLS_OF_A_COURSE = 10
CUTS_OF_A_LOG = 10
FORMS = (("one section", 256, "--interleave-sectors 8 --sections 1"),
         ("four sections", 1024, "--interleave-sectors 8 --sections 4"),
         ("three sections, blocks of 1024", 2048, "--sector-size 1024 --interleave-sectors 16 --sections 3"),
         ("blocks of 4096", 2048, "--sector-size 4096 --interleave-sectors 8 --sections 2"),
         ("tags of 20 bytes under a salt", 1024,
          "--tag-size 20 --interleave-sectors 32 --sections 2 --salt " + "5a" * 16),
         ("a key", 512, "--interleave-sectors 8 --sections 2 --integrity hmac-sha256 --integrity-key-file KEY"))


class History:
    """The writes of a session in their order, block by block, how many are flushed, and the requests in flight."""

    def __init__(self, base):
        self.base = base
        self.size = len(base[0])
        self.writes = []
        self.flushed = 0
        self.tickets = {}
        self.submitted = 0
        self.marks = [(0, 0)]

    def request(self, line):
        """The blocks that a line writes, and whether they are flushed with it."""
        words = line.split(" ")
        if words[0] == "fill":
            content = bytes.fromhex(words[3]) * (self.size * int(words[2]))
        elif words[0] == "write":
            content = content_of(words[2])
        else:
            return [], words[0] == "flush"
        blocks = [content[at:at + self.size] for at in range(0, len(content), self.size)]
        return list(enumerate(blocks, int(words[1]))), words[-1] == "fua"

    def begun(self, line):
        """The writes that stand in the history once a line is run, if none of it is refused."""
        words = line.split(" ")
        if words[0] == "serve":
            return self.tickets[int(words[1])][0][:1]
        if words[0] in ("start", "take", "step"):
            return []
        served = [write for left, _ in self.tickets.values() for write in left]
        return served + self.request(line)[0]

    def note(self, line, reply):
        """Takes a line that was run, with its reply."""
        words = line.split(" ")
        if words[0] == "start" and reply.startswith("ticket"):
            self.submitted += 1
            self.tickets[self.submitted] = self.request(line.partition(" ")[2])
        elif words[0] == "serve" and reply in ("did", "done"):
            left, flushes = self.tickets[int(words[1])]
            self.writes += left[:1]
            self.tickets[int(words[1])] = left[1:], flushes and reply != "done"
            if reply == "done" and flushes:
                self.flushed = len(self.writes)
        elif words[0] == "take" and reply != "not done":
            del self.tickets[int(words[1])]
        elif words[0] in ("fill", "write", "read", "flush"):
            self.serve_all(line, reply)
        self.marks.append((len(self.writes), self.flushed))

    def serve_all(self, line, reply):
        """Takes a line that serves all requests in flight first, and then its own."""
        for ticket, (left, flushes) in self.tickets.items():
            self.writes += left
            self.tickets[ticket] = [], False
            if flushes:
                self.flushed = len(self.writes)
        if reply == "slots full":
            return
        self.submitted += 1
        writes, flushes = self.request(line)
        self.writes += writes
        if flushes:
            self.flushed = len(self.writes)

    def now(self):
        """The blocks as a read gives them."""
        blocks = list(self.base)
        for block, content in self.writes:
            blocks[block] = content
        return blocks

    def is_prefix(self, seen, least, writes):
        """Whether the blocks are those after some of the writes, at least so many."""
        now = list(self.base)
        wrong = sum(one != other for one, other in zip(now, seen))
        for count in range(len(writes) + 1):
            if wrong == 0 and count >= least:
                return True
            if count < len(writes):
                block, content = writes[count]
                wrong += (content != seen[block]) - (now[block] != seen[block])
                now[block] = content
        return False


class Lines:
    """The lines of a session, at random: requests one by one, steps of the device, or requests in flight."""

    def __init__(self, chance, blocks, size, number):
        self.chance, self.blocks, self.size = chance, blocks, size
        self.number = number
        self.kind = chance.choice(("requests", "steps", "flight", "flight"))
        self.queue = []

    def range(self, most):
        """Some blocks in a row, so that blocks are often written again."""
        count = self.chance.choice((1, 1, 1, 2, 3, min(most, 40)))
        first = self.chance.randrange(min(self.blocks, self.chance.choice((10, 60, self.blocks))))
        return first, min(count, self.blocks - first)

    def write(self, most=40):
        """A write whose blocks hold their numbers."""
        first, count = self.range(most)
        runs = []
        for _ in range(count):
            self.number += 1
            runs.append(f"{self.number >> 8 & 255:02x}*{self.size // 2},{self.number & 255:02x}*{self.size // 2}")
        return f"write {first} {','.join(runs)}" + (" fua" if self.chance.random() < 0.1 else "")

    def fill(self):
        first, count = self.range(40)
        self.number += 1
        return f"fill {first} {count} {self.number & 255:02x}"

    def plain(self):
        """A line that is a request, and no start of one."""
        at = self.chance.random()
        if at < 0.5:
            return self.write()
        if at < 0.65:
            return self.fill()
        if at < 0.8:
            first, count = self.range(40)
            return f"read {first} {count}"
        return "flush"

    def step(self):
        return "step " + self.chance.choice(("commit", "place", "place", "place", "settle", "clean"))

    def flight(self, history):
        """A line on requests in flight; a write that finds no room has had its steps."""
        at = self.chance.random()
        tickets = list(history.tickets)
        if at < 0.3 and len(tickets) < 12:
            return "start " + self.chance.choice((self.write(5), self.write(5), self.write(5), self.plain(), "flush"))
        if tickets and at < 0.75:
            return f"serve {self.chance.choice(tickets)}"
        if tickets and at < 0.9:
            return f"take {self.chance.choice(tickets)}"
        return self.step() if at < 0.97 else self.plain()

    def next(self, history, reply):
        if reply == "no room":
            self.queue = ["step commit"] * 2 + ["step place"] * self.chance.choice((3, 20, 90)) + ["step settle"]
        if self.queue:
            return self.queue.pop(0)
        if self.kind == "flight":
            return self.flight(history)
        return self.step() if self.kind == "steps" and self.chance.random() < 0.3 else self.plain()


class Running:
    """A run of the program that is given its lines one by one. One that hangs is killed in the end."""

    def __init__(self, program, words, tracer):
        self.child = subprocess.Popen([*tracer, program.path, *words], stdin=subprocess.PIPE, stdout=subprocess.PIPE,
                                      stderr=subprocess.DEVNULL)
        self.watch = threading.Timer(SECONDS, self.child.kill)
        self.watch.start()

    def give(self, line):
        """Gives a line to the program, if it is still there."""
        try:
            self.child.stdin.write(line.encode() + b"\n")
            self.child.stdin.flush()
        except OSError:
            pass

    def answer(self, line):
        """The reply to a line, or None where the program has ended."""
        self.give(line)
        reply = self.child.stdout.readline().decode()
        return reply[:-1] if reply.endswith("\n") else None

    def close(self):
        """Ends the script: the status, and what is printed behind the last reply."""
        try:
            self.child.stdin.close()
        except OSError:
            pass
        text = self.child.stdout.read().decode()
        self.child.stdout.close()
        status = self.child.wait()
        self.watch.cancel()
        return status, text

    def kill(self):
        """Kills the program: the status, and what was printed behind the last reply."""
        self.child.kill()
        return self.close()


class Course:
    """One image, and the sessions on it."""

    def __init__(self, program, tally, seed, folder):
        self.program, self.tally, self.folder = program, tally, folder
        self.chance = random.Random(seed)
        form, sectors, options = FORMS[seed % len(FORMS)]
        self.name = f"course {seed}, {form}"
        self.file, self.log = f"{folder}/image", f"{folder}/log"
        write_file(f"{folder}/key", b"a key of some bytes")
        words = options.replace("KEY", f"{folder}/key").split(" ")
        self.key = words[words.index("--integrity"):] if "--integrity" in words else []
        write_file(self.file, bytes(sectors * SECTOR))
        status, text = program.run(["format", self.file, *words])
        tally.judge(f"{self.name}: format", status == 0, text)
        self.size = SECTOR << read_file(self.file)[28]
        self.base = [bytes(self.size)] * (int(text.split(" ")[2]) * SECTOR // self.size)
        self.number = self.killed = self.cut = 0

    def words(self, mode, file=None):
        return ["run", file or self.file, "--mode", mode, *self.key]

    def judge(self, good, told):
        self.tally.judge(f"{self.name}, {self.killed} kills and {self.cut} cuts", good, told)

    def read(self, mode, file, tracer=()):
        """The blocks that a run reads, or None."""
        status, text = self.program.run(self.words(mode, file), read_all(len(self.base)), tracer)
        seen = blocks_of_text(text, self.size) if status == 0 else None
        self.judge(seen is not None, f"mode {mode}, status {status}: {text[-300:]}")
        return seen

    def session(self, tracer, count):
        """Gives so many lines to the program, one by one: the history, and the line that is not answered, if any."""
        history, lines = History(self.base), Lines(self.chance, len(self.base), self.size, self.number)
        running = Running(self.program, self.words("J"), tracer)
        reply, open_line = "", None
        for _ in range(count):
            open_line = lines.next(history, reply)
            reply = running.answer(open_line)
            if reply is None:
                break
            self.look_at(history, open_line, reply)
            history.note(open_line, reply)
            open_line = None
        self.number = lines.number
        return history, open_line, running, lines

    def look_at(self, history, line, reply):
        """A reply is no fault, and a read gives the blocks as they are."""
        wanted = None
        if line.startswith("read "):
            now = history
            if history.tickets:
                now = History(history.now())
                now.writes = history.begun(line)
            first, count = (int(word) for word in line.split(" ")[1:])
            wanted = f"ok {line} {runs_of(b''.join(now.now()[first:first + count]))}"
        good = reply == wanted if wanted else not reply.startswith("fault")
        self.judge(good, f"the line {line[:100]} has the reply {reply[:300]}")

    def end(self, running, history, open_line, lines):
        """Kills what still runs, with a last line under way: the writes that may stand on the disk."""
        if open_line is None:
            open_line = lines.plain()
            self.number = lines.number
            running.give(open_line)
            time.sleep(self.chance.random() ** 4 * 0.01)
        status, text = running.kill()
        self.judge(status == -signal.SIGKILL, f"status {status} at a kill: {text[-300:]}")
        self.killed += 1
        if text.endswith("\n"):
            history.note(open_line, text.rstrip("\n"))
            return history.writes
        return history.writes + history.begun(open_line)

    def kill(self):
        """A session that is killed, some openings that are killed, and what is read then in both modes."""
        tracer = ()
        if self.program.tracer and self.chance.random() < 0.6:
            tracer = change("signal=KILL", CALLS, self.chance.randint(1, 60))
        history, open_line, running, lines = self.session(tracer, self.chance.choice((3, 10, 30, 80)))
        writes = self.end(running, history, open_line, lines)
        while self.chance.random() < 0.3:
            self.kill_opening()
        before = read_file(self.file)
        seen = self.read("J", self.file)
        if seen is None:
            raise ValueError(f"{self.name}: cannot be read")
        self.judge_blocks(history, seen, history.flushed, writes)
        if self.chance.random() < 0.3:
            copy = f"{self.folder}/copy"
            write_file(copy, before)
            self.judge(self.read("D", copy) == seen, "direct mode reads other blocks")
            self.judge(self.read("J", copy) == seen, "journal mode behind direct mode reads other blocks")
        self.base = seen

    def judge_blocks(self, history, seen, least, writes):
        good = history.is_prefix(seen, least, writes)
        differ = [block for block, content in enumerate(history.now()) if content != seen[block]]
        self.judge(good, f"no prefix of {len(writes)} writes, {least} flushed; other than the last: {differ[:20]}")

    def kill_opening(self):
        """An opening that is killed at a call of the system, or at any moment."""
        mode = self.chance.choice("JJD")
        tracer = ()
        if self.program.tracer and self.chance.random() < 0.8:
            tracer = change("signal=KILL", CALLS, self.chance.randint(1, 8))
        running = Running(self.program, self.words(mode), tracer)
        if tracer:
            running.answer("read 0 1")
        else:
            time.sleep(self.chance.random() ** 2 * 0.05)
        running.kill()
        self.killed += 1

    def cuts(self):
        """A session under the tracer, and cuts of the power at some moments of it."""
        before = read_file(self.file)
        history, open_line, running, _ = self.session(log_to(self.log), self.chance.choice((10, 30, 80)))
        status, text = running.close()
        good = (status, text, open_line) == (0, "closed\n", None)
        self.judge(good, f"a session ends with status {status}, {text[-300:]}")
        events = events_of(self.log)
        after, _ = image_at(before, events, len(events), self.chance)
        if not self.is_whole(after):
            return
        for _ in range(CUTS_OF_A_LOG):
            image, answered = image_at(before, events, moment_of(events, self.chance), self.chance)
            least = history.marks[min(answered, len(history.marks) - 1)][1]
            most = history.marks[min(answered + 1, len(history.marks) - 1)][0]
            seen = self.judge_cut(history, image, least, history.writes[:most])
        self.base = history.now()
        # The next session goes on behind a cut, or behind the session.
        if seen is not None and self.chance.random() < 0.7:
            self.base = seen
            write_file(self.file, read_file(f"{self.folder}/copy"))

    def is_whole(self, after):
        """Whether the log tells all that was written."""
        good = read_file(self.file) == after
        self.judge(good, "the log of the tracer is not what stands in the image")
        return good

    def judge_cut(self, history, image, least, writes):
        """A cut image is read, and so is what a cut of this reading leaves: the blocks, or None."""
        self.cut += 1
        copy = f"{self.folder}/copy"
        write_file(copy, image)
        twice = self.chance.random() < 0.5
        seen = self.read("J", copy, log_to(self.log) if twice else ())
        if seen is None:
            return None
        self.judge_blocks(history, seen, least, writes)
        if twice:
            events = events_of(self.log)
            again, _ = image_at(image, events, moment_of(events, self.chance), self.chance)
            self.cut += 1
            write_file(copy, again)
            other = self.read(self.chance.choice("JJD"), copy)
            self.judge(other == seen, "a cut of the opening leaves other blocks")
        return seen


def image_at(image, events, count, chance):
    """An image that a cut may leave after some events, within the next one: each sector as it was at the last sync, or
    as any write since has left it. And how many lines were answered. After all events it is what the file holds."""
    last, older, answered = bytearray(image), {}, 0
    for place, event in enumerate(events[:count + 1]):
        if event[0] == "write":
            for at in range(0, len(event[2]), SECTOR):
                sector = (event[1] + at) // SECTOR * SECTOR
                older.setdefault(sector, []).append(bytes(last[sector:sector + SECTOR]))
                last[sector:sector + SECTOR] = event[2][at:at + SECTOR]
        elif place < count and event[0] == "sync":
            older.clear()
        elif place < count:
            answered += event[1].count(b"\n")
    for sector in some_of(sorted(older), chance) if count < len(events) else ():
        last[sector:sector + SECTOR] = chance.choice(older[sector])
    return bytes(last), answered


def moment_of(events, chance):
    """Where a cut falls: at any event, or within a write of many sectors, which commits or erases."""
    large = [place for place, event in enumerate(events) if event[0] == "write" and len(event[2]) > 8 * SECTOR]
    return chance.choice(large) if large and chance.random() < 0.6 else chance.randrange(len(events))


def some_of(sectors, chance):
    """Some of a list: any of them, or those before or behind a place."""
    if chance.random() < 0.6:
        share = chance.choice((0.02, 0.2, 0.5, 0.8, 0.98))
        return [sector for sector in sectors if chance.random() < share]
    place = chance.randint(0, len(sectors))
    return chance.choice((sectors[:place], sectors[place:]))


def run_course(program, tally, seed, kills):
    """So many kills on one image, and cuts beside where there is a tracer: how many there were of each."""
    with tempfile.TemporaryDirectory() as folder:
        course = Course(program, tally, seed, folder)
        try:
            while course.killed < kills:
                course.kill()
                if program.tracer and course.chance.random() < 0.1:
                    course.cuts()
        except (ValueError, KeyError, IndexError) as fault:
            tally.judge(f"{course.name} has ended", False, repr(fault))
        return course.killed, course.cut


def run_all(program, tally, pool, kills):
    """At least so many kills, and the cuts beside: how many there were of each."""
    courses = -(-kills // KILLS_OF_A_COURSE)
    work = [pool.submit(run_course, program, tally, seed, KILLS_OF_A_COURSE) for seed in range(courses)]
    done = [course.result() for course in work]
    return sum(killed for killed, _ in done), sum(cut for _, cut in done)
