#!/usr/bin/env python3
"""command_line.py PROGRAM HELP WORD..

Answers a command line of `mailfold` or `mailrep` as the program would, where it needs no program: help and version, what is wrong with the
words, a script or a folder that isn't there. HELP is the folder of what the program prints of itself. The exit status is the program's then;
it is 99, and nothing is printed, where the words can run. For tools/run-program, which builds the program only then.

The options and words of a subcommand are read from its short help. What is said of them is what the crate `clap` says: a word is read after
the other, and the first fault is told. tools/try-command-lines compares that with the programs.
"""
import datetime
import errno
import os
import re
import sys
from pathlib import Path

CAN_RUN = 99
BUILT = ", built without a proof"
# The greatest value of an option that takes a number, and the greatest that can be read at all.
NUMBERS = {"id": (63, 2**63 - 1), "older": (2**32 - 1, 2**63 - 1), "most-deletions": (2**64 - 1, 2**64 - 1)}
# An option whose value is words between commas.
LISTS = ("names",)
SCRIPTED = ("run", "draw", "live")
BAD_VERSION = "bad version: expected an author of 0 to 63, a dot and a counter of 1 to 1000000, without leading zeros"


class Answer(Exception):
    """What is printed, on which stream, and the exit status."""

    def __init__(self, text, status, stream=None):
        super().__init__(text)
        self.text, self.status, self.stream = text, status, stream or (sys.stdout if status == 0 else sys.stderr)


class Option:
    def __init__(self, short, long, value, text, usage):
        self.short, self.long, self.value = short or None, long, value or None
        self.shown = f"--{long} <{value}>" if value else f"--{long}"
        self.is_required = self.shown in usage
        possible = re.search(r"\[possible values: (.*)\]", text)
        self.possible = possible and possible[1].split(", ")


class Command:
    """What a command line may have, by the short help of a subcommand, or of the program."""

    def __init__(self, program, folder, name):
        self.folder, self.name = Path(folder), name
        self.help = (self.folder / f"{name}.short").read_text()
        self.usage = re.search(r"^Usage: (.*)$", self.help, flags=re.MULTILINE)[1]
        self.called = program if name == program else f"{program} {name}"
        listed = self.help.partition("\nOptions:\n")[2]
        rows = re.findall(r"^ +(?:-(\S), )?--([a-z-]+)(?: <([A-Z]+)>)?(.*)$", listed, flags=re.MULTILINE)
        self.options = [Option(*row, self.usage) for row in rows]
        self.words = re.findall(r"(?:^| )(<[A-Z]+>(?:\.\.\.)?|\[[A-Z]+\])", re.sub(r"--[a-z-]+ <[A-Z]+>", "", self.usage).replace("[OPTIONS]", ""))
        self.has_subcommands = name == program
        if self.has_subcommands:
            self.words = []
        self.subcommands = re.findall(r"^  (\w+)  +", self.help.partition("Commands:\n")[2].partition("\n\n")[0], flags=re.MULTILINE)

    def named(self, long):
        return next((it for it in self.options if it.long == long), None)

    def lettered(self, short):
        return next((it for it in self.options if it.short == short), None)

    def print_help(self, size):
        raise Answer((self.folder / f"{self.name}.{size}").read_text(), 0)

    def usage_of(self, used):
        """The usage with what is required and what is used: options and words."""
        if not used:
            return self.usage
        options = [it.shown for it in self.options if it.is_required] + [it.shown for it in used if isinstance(it, Option)]
        words = [it.replace("[", "<").replace("]", ">") if it in used else it for it in self.words]
        return " ".join([self.called, *dict.fromkeys(options), *words, *(["<COMMAND>"] if self.has_subcommands else [])])

    def refuse(self, text, used=()):
        raise Answer(f"error: {text}\n\nUsage: {self.usage_of(used)}\n\nFor more information, try '--help'.\n", 2)


def refuse_value(text):
    raise Answer(f"error: {text}\n\nFor more information, try '--help'.\n", 2)


def stop(program, text, status=1):
    raise Answer(f"{program}: {text}\n", status)


def likeness(one, other):
    """Jaro's measure of how alike two words are."""
    if not one or not other:
        return float(one == other)
    reach = max(max(len(one), len(other)) // 2 - 1, 0)
    taken, first = [False] * len(other), []
    for at, letter in enumerate(one):
        for place in range(max(0, at - reach), min(len(other), at + reach + 1)):
            if not taken[place] and other[place] == letter:
                taken[place] = True
                first.append(letter)
                break
    if not first:
        return 0.0
    second = [letter for letter, is_taken in zip(other, taken) if is_taken]
    moved = sum(a != b for a, b in zip(first, second)) // 2
    count = len(first)
    return (count / len(one) + count / len(other) + (count - moved) / count) / 3


def alike(word, names):
    """The names that are like the word, the likest last."""
    found = []
    for name in names:
        measure = likeness(word, name)
        if measure > 0.7:
            at = sum(it[0] <= measure for it in found)
            found.insert(at, (measure, name))
    return [name for _, name in found]


class Reading:
    """Reads the words of a command, one after the other."""

    def __init__(self, command, words):
        self.command, self.words, self.at = command, words, 0
        self.used, self.given, self.values = [], [], {}
        self.pending = None
        self.only_words = False

    def read(self):
        """Reads the words, up to a subcommand, if the command has some: then gives its name."""
        while self.at < len(self.words):
            word = self.words[self.at]
            self.at += 1
            if self.only_words:
                self.take_word(word)
            elif word == "--":
                self.settle()
                self.only_words = True
            elif word.startswith("--"):
                self.take_long(*word[2:].partition("="))
            elif word.startswith("-") and len(word) > 1:
                self.take_short(word[1:])
            elif self.pending:
                self.take_value(word)
            elif self.command.has_subcommands:
                if word in self.command.subcommands:
                    return word
                self.refuse_subcommand(word)
            else:
                self.take_word(word)
        self.settle()
        self.check_missing()
        return None

    def note(self, option):
        if option in self.used:
            self.command.refuse(f"the argument '{option.shown}' cannot be used multiple times")
        self.used.append(option)

    def take_flag(self, option, size):
        self.settle()
        if option.long == "help":
            self.command.print_help(size)
        if option.long == "version":
            raise Answer((self.command.folder / "version").read_text().rstrip("\n") + BUILT + "\n", 0)
        self.note(option)

    def take_long(self, name, has_value, value):
        option = self.command.named(name)
        if option is None:
            self.refuse_option(name)
        if option.value is None and has_value:
            used = [it for it in self.used if not getattr(it, "is_required", False) and it not in self.command.words]
            self.command.refuse(f"unexpected value '{value}' for '{option.shown}' found; no more were expected", [*used, option])
        if option.value is None:
            self.take_flag(option, "long")
        else:
            self.settle()
            self.pending = option
            if has_value:
                self.take_value(value)

    def take_short(self, letters):
        for letter in letters:
            option = self.command.lettered(letter)
            if option is None:
                tip = f"\n\n  tip: to pass '-{letter}' as a value, use '-- -{letter}'" if self.command.words else ""
                self.command.refuse(f"unexpected argument '-{letter}' found{tip}")
            self.take_flag(option, "short")

    def settle(self):
        """An option waits for no value any more."""
        if self.pending:
            refuse_value(f"a value is required for '{self.pending.shown}' but none was supplied")

    def take_value(self, value):
        option, self.pending = self.pending, None
        self.note(option)
        self.check_value(option, value)
        self.values[option.long] = value

    def check_value(self, option, value):
        wrong = f"invalid value '{value}' for '{option.shown}'"
        none = f"a value is required for '{option.shown}' but none was supplied"
        if option.long in NUMBERS:
            most, readable = NUMBERS[option.long]
            if value == "":
                refuse_value(f"{wrong}: cannot parse integer from empty string")
            if not re.fullmatch(r"\+?[0-9]+", value):
                refuse_value(f"{wrong}: invalid digit found in string")
            if int(value) > readable:
                refuse_value(f"{wrong}: number too large to fit in target type")
            if int(value) > most:
                refuse_value(f"{wrong}: {int(value)} is not in 0..={most}")
        elif option.long in LISTS and "" in value.split(","):
            refuse_value(none)
        elif option.possible and value not in option.possible:
            near = alike(value, option.possible)
            tip = f"\n\n  tip: a similar value exists: '{near[-1]}'" if near else ""
            refuse_value(f"{wrong if value else none}\n  [possible values: {', '.join(option.possible)}]{tip}")

    def take_word(self, word):
        self.settle()
        several = bool(self.command.words) and self.command.words[-1].endswith("...")
        if len(self.given) >= len(self.command.words) and not several:
            if self.command.has_subcommands and word not in self.command.subcommands:
                self.refuse_subcommand(word)
            tip = f"\n\n  tip: subcommand '{word}' exists; to use it, remove the '--' before it" if self.command.has_subcommands else ""
            self.command.refuse(f"unexpected argument '{word}' found{tip}")
        place = self.command.words[min(len(self.given), len(self.command.words) - 1)]
        if word == "" and place.startswith("<DIR>"):
            refuse_value(f"a value is required for '{place}' but none was supplied")
        self.given.append(word)
        if place not in self.used:
            self.used.append(place)

    def check_missing(self):
        options = [it for it in self.command.options if it.is_required and it not in self.used]
        words = [it for it in self.command.words[len(self.given) :] if it.startswith("<")]
        if options or words:
            listed = "".join(f"\n  {it}" for it in [*(it.shown for it in options), *words])
            self.command.refuse(f"the following required arguments were not provided:{listed}", [*self.used, *options, *words])

    def refuse_option(self, name):
        near, tip = alike(name, [it.long for it in self.command.options]), ""
        if near:
            found = self.command.named(near[-1])
            if found not in self.used:
                self.used.append(found)
            tip = f"\n\n  tip: a similar argument exists: '--{near[-1]}'"
        elif self.command.words:
            tip = f"\n\n  tip: to pass '--{name}' as a value, use '-- --{name}'"
        elif self.command.has_subcommands:
            tip = self.tip_of_subcommand(name)
        self.command.refuse(f"unexpected argument '--{name}' found{tip}", self.used)

    def tip_of_subcommand(self, name):
        """A subcommand among the other words that has such an option."""
        rest = self.words[self.at :]
        for word in rest:
            if word in self.command.subcommands and word != "help":
                other = Command(self.command.name, self.command.folder, word)
                near = alike(name, [it.long for it in other.options])
                if near:
                    return f"\n\n  tip: '{word} --{near[-1]}' exists"
        return ""

    def refuse_subcommand(self, word):
        near = alike(word, self.command.subcommands)
        names = ", ".join(f"'{it}'" for it in near)
        many = "a similar subcommand exists" if len(near) == 1 else "some similar subcommands exist"
        self.command.refuse(f"unrecognized subcommand '{word}'" + (f"\n\n  tip: {many}: {names}" if near else ""))


def answer_help(program, folder, top, words):
    """`help` with the names of subcommands."""
    command = top
    for at, word in enumerate(words):
        if word not in command.subcommands:
            command.refuse(f"unrecognized subcommand '{word}'")
        if word == "help":
            answer_help_of_help(program, words[at + 1 :])
        command = Command(program, folder, word)
    command.print_help("long")


def answer_help_of_help(program, words):
    """`help help`, which has no words of its own in the program."""
    usage = f"Usage: {program} help [COMMAND]...\n"
    if words:
        raise Answer(f"error: unrecognized subcommand '{words[0]}'\n\n{usage}", 2)
    about, rows = "Print this message or the help of the given subcommand(s)", "  [COMMAND]...  Print help for the subcommand(s)"
    raise Answer(f"{about}\n\n{usage}\nArguments:\n{rows}\n", 0)


# ---- what a command needs

def check_script(name, is_drawn, wants_hints):
    """A script can be opened, and is no folder; but a folder is drawn, as a picture of that fault."""
    try:
        if os.path.isdir(name) and not is_drawn:
            reason = "it is a folder"
        else:
            os.close(os.open(name, os.O_RDONLY))
            return
    except OSError as error:
        reasons = {errno.EACCES: "it may not be read", errno.ENOENT: "there is no such file", errno.ENOTDIR: "there is no such file"}
        reason = reasons.get(error.errno, "it can't be read")
    shown = re.sub(r"[\x00-\x1f\x7f]", "?", name)
    raise Answer("read fault\n" + (f'hint: "{shown}": {reason}\n' if wants_hints else ""), 1)


def is_date(text):
    try:
        return bool(re.fullmatch(r"\d{4}-\d\d-\d\d", text)) and datetime.date(1970, 1, 1) <= datetime.date.fromisoformat(text) <= datetime.date(2149, 6, 6)
    except ValueError:
        return False


def check_filter(program, text):
    """A text is a filter: `none`, or conditions with ` & ` and ` | ` between them."""
    if text == "none":
        return
    at = 0
    for clause in text.split(" | "):
        pieces = clause.split(" & ")
        for piece in pieces:
            label = re.fullmatch(r"!?label:[a-z0-9-]{1,32}", piece)
            flag = re.fullmatch(r"!?flag:(seen|answered|flagged|draft|deleted)", piece)
            if not (label or flag or (piece.startswith("since:") and is_date(piece[6:])) or (piece == "all" and len(pieces) == 1)):
                stop(program, f"bad filter at {at}", 2)
            at += len(piece.encode()) + 3


def check_version(program, text):
    found = re.fullmatch(r"(0|[1-9][0-9]?)\.([1-9][0-9]{0,6})", text)
    if not found or int(found[1]) > 63 or int(found[2]) > 1_000_000:
        stop(program, BAD_VERSION, 2)


def check_folder(program, folder):
    """A folder is one of mailfold."""
    try:
        os.stat(folder)
    except FileNotFoundError as error:
        stop(program, f"no such folder: {error.strerror} (os error {error.errno})")
    except OSError:
        sys.exit(CAN_RUN)
    if not os.path.isdir(folder):
        stop(program, "no such folder: not a directory")
    if not os.path.lexists(f"{folder}/.mailfold/log") and not os.path.lexists(f"{folder}/.mailfold/log.new"):
        stop(program, "not a folder of mailfold: it has no journal, .mailfold/log")


def check_mailfold(program, name, reading):
    words = reading.given
    for text in [reading.values.get("filter"), words[1] if name == "ls" and len(words) > 1 else None]:
        if text is not None:
            check_filter(program, text)
    if name in ("show", "export", "log") and len(words) > 1:
        check_version(program, words[1])
    if name in ("sync", "serve") and (os.isatty(0) or os.isatty(1)):
        stop(program, "folders talk over pipes, and a terminal is none: `mailfold-sync DIR COMMAND` joins two")
    if name not in ("init", "audit"):
        check_folder(program, words[0])


def answer(program, folder, words):
    top = Command(program, folder, program)
    if not words:
        raise Answer(top.help, 2)
    reading = Reading(top, words)
    name = reading.read()
    if name is None:
        sys.exit(CAN_RUN)
    rest = words[reading.at :]
    if name == "help":
        answer_help(program, folder, top, rest)
    reading = Reading(Command(program, folder, name), rest)
    reading.read()
    if program == "mailfold":
        check_mailfold(program, name, reading)
    elif name in SCRIPTED and reading.given and reading.given[0] != "-":
        check_script(reading.given[0], name == "draw", any(it.long == "hints" for it in reading.used if isinstance(it, Option)))


def main():
    program, folder, *words = sys.argv[1:]
    try:
        answer(program, folder, words)
    except Answer as it:
        it.stream.write(it.text)
        sys.exit(it.status)
    sys.exit(CAN_RUN)


main()
