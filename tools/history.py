"""What has happened in a world, worked out from its events and answers alone: what tools/soak compares replicas with.

Nothing here asks a replica. Versions are numbers, an author's 20 bits above those of a counter, so that they are in
the order of versions. Sets are plain sets and are made anew from the definitions of docs/RULES.md; nothing is in vectors. `Mailrep` is a
`mailrep run --sparing` that is given a line and answers it before the next.
"""

import os
import pathlib
import resource
import subprocess
import sys

MAILREP = pathlib.Path(__file__).resolve().parent.parent / "crates/mr_console/out/mailrep"
COUNTER = 1 << 20


def version_of(text):
    """The version of a text as `0.1`."""
    author, counter = text.split(".")
    return int(author) * COUNTER + int(counter)


def text_of(version):
    return f"{version // COUNTER}.{version % COUNTER}"


class Wrong(Exception):
    """Something is not as the history has it."""


def check(holds, what):
    if not holds:
        raise Wrong(what)


class Mailrep:
    def __init__(self, words):
        """Runs the program that the words name first, or the built one."""
        program = pathlib.Path(words[0]).resolve() if words else MAILREP
        if not os.access(program, os.X_OK):
            sys.exit(f"{program} is not there: build it first, or name the program")
        run = [str(program), "run", "--sparing", "-"]
        self.process = subprocess.Popen(run, stdin=subprocess.PIPE, stdout=subprocess.PIPE)
        self.line = ""

    def say(self, line):
        """Gives it a line that has no answer, or whose answer is read later."""
        self.line = line
        self.process.stdin.write(line.encode() + b"\n")

    def hear(self):
        """The next answer."""
        self.process.stdin.flush()
        answer = self.process.stdout.readline()
        check(answer.endswith(b"\n"), "the program has ended")
        return answer[:-1].decode()

    def ask(self, line):
        self.say(line)
        return self.hear()

    def rest_of(self, command, replica):
        """What it answers behind the colon."""
        head, _, rest = self.ask(f"{command} {replica}").partition(":")
        check(head == f"{command} {replica}", "it is answered otherwise")
        return rest[1:]

    def end(self):
        """Ends it. Gives what it took."""
        self.process.stdin.close()
        check(self.process.wait() == 0, "the program ended with a fault")
        usage = resource.getrusage(resource.RUSAGE_CHILDREN)
        return f"mailrep took {usage.ru_utime + usage.ru_stime:.0f} s and {usage.ru_maxrss // 1024} MB"


class Issue:
    """An issued version: its item, what it supersedes, and who selects it."""

    __slots__ = ("version", "item", "below", "selected_by")

    def __init__(self, version, item, below, selected_by):
        self.version, self.item, self.below, self.selected_by = version, item, below, selected_by


class Session:
    """What was taken of the one stream to which a session is bound."""

    __slots__ = ("source", "stream", "taken", "is_full")

    def __init__(self):
        self.source, self.stream, self.taken, self.is_full = None, None, 0, False


class Stream:
    """A stream of a source: who asks, in which session, and what the source knew at the answer."""

    __slots__ = ("target", "session", "given", "is_full", "known_count", "held")

    def __init__(self, target, session, known_count):
        self.target, self.session, self.known_count = target, session, known_count
        self.given, self.is_full, self.held = 0, False, None


class Record:
    """A record that was given, by its place in its stream."""

    __slots__ = ("source", "stream", "target", "session", "index", "kind", "version", "is_full")

    def __init__(self, source, number, stream, kind, version):
        self.source, self.stream, self.index = source, number, stream.given
        self.target, self.session, self.is_full = stream.target, stream.session, stream.is_full
        self.kind, self.version = kind, version


class Member:
    """What one replica has."""

    def __init__(self):
        self.learned, self.known = [], set()
        self.stored, self.pushed_out, self.feed = set(), set(), []
        self.sessions, self.streams, self.is_retired = [], [], False

    def learn(self, versions):
        new = [version for version in versions if version not in self.known]
        self.learned += new
        self.known.update(new)

    def enter(self, version):
        self.stored.add(version)
        self.feed.append(version)

    def leave(self, versions):
        """These leave the store, in their order."""
        for version in sorted(versions):
            self.stored.remove(version)
            self.feed.append(-version)

    def supersede(self, below):
        self.leave(self.stored & below)
        self.pushed_out -= below


class History:
    """All that has happened among so many replicas."""

    def __init__(self, replicas):
        self.members = [Member() for _ in range(replicas)]
        self.issues, self.own_items = {}, [{} for _ in range(replicas)]
        self.issued, self.superseded = [0] * replicas, set()
        self.asks, self.records, self.receipts = [], [], []

    # ---- versions

    def issue(self, author, version, bases, selected_by):
        """A version is issued. It supersedes its bases, the author's last version of the item, and what these do."""
        self.issued[author] += 1
        check(version == author * COUNTER + self.issued[author], f"{text_of(version)} is not the author's next")
        item = self.issues[bases[0]].item if bases else version
        last = self.own_items[author].get(item)
        below = set()
        for base in bases + ([last] if last else []):
            below.add(base)
            below |= self.issues[base].below
        self.own_items[author][item] = version
        self.superseded |= below
        self.issues[version] = Issue(version, item, below, selected_by)
        member = self.members[author]
        member.learn([version])
        member.supersede(below)
        if author in selected_by:
            member.enter(version)
        else:
            member.pushed_out.add(version)

    def take_version(self, target, version, is_item):
        """A replica takes a version. Gives whether it was known."""
        issue, member = self.issues[version], self.members[target]
        was_known = version in member.known
        member.learn([version])
        member.learn(issue.below)
        if not was_known:
            member.supersede(issue.below)
            if is_item and target in issue.selected_by:
                member.enter(version)
        return was_known

    # ---- requests, streams and records

    def ask(self, target, session):
        self.members[target].sessions.append(Session())
        check(len(self.members[target].sessions) == session, f"session {session} has another number")
        self.asks.append((target, session))

    def answer(self, source, ask, number):
        member = self.members[source]
        member.streams.append(Stream(*self.asks[ask - 1], len(member.learned)))
        check(len(member.streams) == number, f"stream {number} has another number")

    def give(self, source, number, kind, told):
        """A stream gives its next record."""
        stream = self.members[source].streams[number - 1]
        if kind == "start":
            stream.is_full = told == "full"
        if kind == "held" and stream.held is None:
            stream.held = frozenset(self.members[source].stored)
        version = version_of(told) if kind in ("item", "moveout") else None
        self.records.append(Record(source, number, stream, kind, version))
        stream.given += 1

    def take(self, target, number):
        """A record is taken. Gives the answer that it has to have."""
        record = self.records[number - 1]
        check(record.target == target, f"record {number} is taken by another than it is for")
        session = self.members[target].sessions[record.session - 1]
        check(session is not None, f"record {number} is taken in a closed session")
        if record.index == 0:
            check(session.taken == 0, f"record {number} is taken again")
            session.source, session.stream, session.is_full = record.source, record.stream, record.is_full
        check((session.source, session.stream) == (record.source, record.stream), f"record {number} is of another stream")
        check(session.taken == record.index, f"record {number} is taken out of turn")
        session.taken += 1
        if record.kind in ("item", "moveout"):
            return "known" if self.take_version(target, record.version, record.kind == "item") else "took"
        if record.kind != "end":
            return "took"
        if session.is_full:
            self.learn_all(target, self.members[record.source], record.stream)
        self.close(target, record.session)
        return "finished"

    def learn_all(self, target, source, number):
        """The end of a full stream teaches what its source knew at the answer; what that and not the held set has, leaves."""
        member, stream = self.members[target], source.streams[number - 1]
        lesson = source.learned[:stream.known_count]
        member.learn(lesson)
        member.leave(member.stored.difference(stream.held).intersection(lesson))

    def close(self, target, number):
        """A session is closed. What its stream's source held is asked for no more."""
        session = self.members[target].sessions[number - 1]
        if session and session.source is not None:
            self.members[session.source].streams[session.stream - 1].held = None
        self.members[target].sessions[number - 1] = None

    def release(self, replica, number):
        version = self.receipts[number - 1]
        self.members[replica].pushed_out -= self.issues[version].below | {version}

    # ---- what has to hold

    def conflicts(self, replica):
        """The items of which two heads do not supersede one another."""
        heads, found = {}, set()
        for version in self.members[replica].stored:
            heads.setdefault(self.issues[version].item, []).append(version)
        for item, versions in heads.items():
            for one in versions:
                if any(one != other and one not in self.issues[other].below and other not in self.issues[one].below
                       for other in versions):
                    found.add(item)
        return sorted(found)

    def check_promise(self):
        """No mail is lost, and each replica stores of what it knows what it selects and nothing supersedes."""
        current = self.issues.keys() - self.superseded
        held = set().union(*(member.stored | member.pushed_out for member in self.members))
        check(current <= held, f"{text_of(min(current - held, default=0))} is lost")
        for replica, member in enumerate(self.members):
            self.check_holding(replica, member)
        return len(current)

    def check_holding(self, replica, member):
        wanted = {version for version in member.known if replica in self.issues[version].selected_by}
        lower = set().union(*(self.issues[version].below for version in member.known))
        unknown = {self.issues[version].item for version in self.issues.keys() - member.known}
        check(member.stored <= wanted, f"{replica} stores what it does not know or select")
        check(not member.stored & lower, f"{replica} stores what it knows to be superseded")
        check(wanted - member.stored <= self.superseded, f"{replica} knows what it selects, and does not store it")
        for version, issue in self.issues.items():
            if issue.item not in unknown:
                is_right = replica in issue.selected_by and version not in self.superseded
                check((version in member.stored) == is_right, f"{replica} knows all of an item, and does not store what is current")
