"""Mails for tools/mailfold-trials: the same number always gives the same bytes."""

import base64
import hashlib
import os
import random

_words = random.Random(7)
WORDS = ["".join(_words.choice("abcdefghijklmnoprstuvw") for _ in range(_words.randint(2, 9))) for _ in range(3000)]


def mail(number):
    """A mail of 1 to 2 KB."""
    numbers = random.Random(number)
    wanted = numbers.randint(1024, 2048)
    head = (
        f"From: Sender {number % 97} <s{number % 97}@bench.invalid>\n"
        f"To: Reader <r@bench.invalid>\n"
        f"Subject: {' '.join(numbers.choices(WORDS, k=5))}\n"
        f"Date: Tue, 14 Nov 2023 {number // 3600 % 24:02d}:{number // 60 % 60:02d}:{number % 60:02d} +0000\n"
        f"Message-ID: <m{number}@bench.invalid>\n"
        f"MIME-Version: 1.0\nContent-Type: text/plain; charset=us-ascii\n\n"
    )
    parts, length = [head], len(head)
    while length < wanted:
        line = " ".join(numbers.choices(WORDS, k=11))[: max(0, wanted - length - 1)] + "\n"
        parts.append(line)
        length += len(line)
    return "".join(parts).encode()


def folder_path(root, folder, layout):
    """Where a folder lies, made with `cur`, `new` and `tmp`."""
    inner = "" if folder == "inbox" else "." + folder.replace("/", ".") if layout == "dots" else folder
    path = os.path.join(root, inner)
    for part in ("cur", "new", "tmp"):
        os.makedirs(os.path.join(path, part), exist_ok=True)
    return path


def layout_of(root):
    """How the folders of a Maildir lie, by what its config says."""
    try:
        with open(f"{root}/.mailfold/config") as config:
            return "plain" if "plain" in config.read() else "dots"
    except FileNotFoundError:
        return "dots"


def name_of(number, flags):
    return f"{1700000000 + number}.M{number}P1.bench:2,{flags}"


def deliver_one(root, number, folder, flags, body=None):
    """Writes a mail of a number into a folder of a Maildir, and gives its length."""
    path = folder_path(root, folder, layout_of(root)) + "/cur/" + name_of(number, flags)
    body = mail(number) if body is None else body
    with open(path, "wb") as file:
        file.write(body)
    os.utime(path, (1700000000 + number,) * 2)
    return len(body)


def deliver(root, first, behind):
    """Writes the mails of these numbers, a third of them in each of the folders f0, f1 and f2, and gives how long they are together."""
    return sum(deliver_one(root, number, f"f{number % 3}", "S") for number in range(first, behind))


def deliver_small(root, count):
    """Writes so many mails of some 100 to 400 bytes."""
    paths = [folder_path(root, f"f{part}", layout_of(root)) for part in range(3)]
    for number in range(count):
        text = f"From: a{number % 97}@bench.invalid\nSubject: mail {number}\nDate: Tue, 14 Nov 2023 10:00:00 +0000\nMessage-ID: <{number}@bench.invalid>\n\n{'x' * (number % 300)}\n"
        with open(f"{paths[number % 3]}/cur/{name_of(number, 'S')}", "w") as file:
            file.write(text)


def deliver_plain(root, first, behind):
    """As `deliver`, into folders f0, f1 and f2 of a Maildir that has no config."""
    length = 0
    for number in range(first, behind):
        path = f"{folder_path(root, f'f{number % 3}', 'plain')}/cur/{name_of(number, 'S')}"
        body = mail(number)
        with open(path, "wb") as file:
            file.write(body)
        os.utime(path, (1700000000 + number,) * 2)
        length += len(body)
    return length


def flag_one_percent(root):
    """Flags each hundredth mail."""
    for part in range(3):
        folder = f"{root}/f{part}/cur"
        for name in os.listdir(folder):
            if ":2," in name and "F" not in name and int(name.split("M")[1].split("P")[0]) % 100 == 0:
                os.rename(f"{folder}/{name}", f"{folder}/{name.split(':2,')[0]}:2,FS")


def move(root, path, folder, flags):
    """Gives a mail's file another folder and other flags, as a mail program does."""
    base = os.path.basename(path).split(":2,")[0]
    os.rename(path, folder_path(root, folder, layout_of(root)) + f"/cur/{base}:2,{flags}")


def odd_mails(numbers):
    """Mails that are hard to read: what each is, and its bytes."""
    head = b"From: Ann <ann@bench.invalid>\nTo: r@bench.invalid\nDate: Tue, 14 Nov 2023 10:00:00 +0000\n"
    for charset in ("iso-8859-1", "iso-8859-15", "windows-1252", "koi8-r", "shift_jis", "gb18030", "euc-kr", "utf-8", "utf-16", "utf-7", "iso-2022-jp"):
        text = "Grüße" if charset in ("iso-8859-1", "iso-8859-15", "windows-1252") else "Привет" if charset == "koi8-r" else "안녕" if charset == "euc-kr" else "日本語"
        raw = text.encode(charset)
        word = base64.b64encode(raw).decode()
        yield f"charset {charset}, encoded word", head + f"Subject: =?{charset}?B?{word}?= =?{charset}?Q?{''.join(f'={byte:02X}' for byte in raw)}?=\nContent-Type: text/plain; charset={charset}\n\n".encode() + raw + b"\n"
        yield f"charset {charset}, raw header", head + b"Subject: " + raw.replace(b"\n", b" ") + b"\nContent-Type: text/plain; charset=" + charset.encode() + b"\n\n" + raw
    yield "an encoded word of an unknown charset", head + b"Subject: =?no-such?B?####?= =?utf-8?X?a?= =?utf-8?B?=?= =?=?=\n\nb\n"
    yield "an encoded word that is cut", head + b"Subject: =?utf-8?Q?=E2=82\n\nb\n"
    part = lambda kind, body: f"--x\r\nContent-Type: {kind}\r\nContent-Transfer-Encoding: base64\r\n\r\n".encode() + base64.encodebytes(body) + b"\r\n"
    multi = b"MIME-Version: 1.0\nContent-Type: multipart/mixed; boundary=x\n\n"
    yield "MIME with three parts", head + multi + part("text/plain", b"text") + part("image/png", numbers.randbytes(4000)) + part("message/rfc822", mail(3)) + b"--x--\r\n"
    yield "MIME whose end is missing", head + multi + part("text/plain", b"text")
    yield "MIME without a boundary", head + b"Content-Type: multipart/alternative\n\n--\n--\n"
    yield "MIME nested forty deep", head + b"".join(b"Content-Type: multipart/mixed; boundary=b%d\n\n--b%d\n" % (depth, depth) for depth in range(40)) + b"\nend\n"
    for number in range(3):
        yield f"an attachment of 5 MB, {number}", head + multi + part("application/octet-stream", numbers.randbytes(3_700_000)) + b"--x--\r\n"
    yield "8 MB without a line's end", head + b"\n" + b"x" * 8_000_000
    yield "random bytes, 1 MB", numbers.randbytes(1_000_000)
    yield "empty", b""
    yield "one line feed", b"\n"
    yield "one byte", b"x"
    yield "CRLF alone", b"\r\n"
    yield "NUL alone", b"\0"
    yield "a hundred NULs", b"\0" * 100
    yield "NUL in a header", head + b"Subject: a\0b\n\n\0\0body\0"
    yield "CRLF", (head + b"Subject: two\n lines\n\nbody\n").replace(b"\n", b"\r\n")
    yield "CRLF and LF mixed", head + b"Subject: m\r\n\r\nbody\nbody\r\n"
    yield "CR alone ends lines", (head + b"Subject: m\n\nbody\n").replace(b"\n", b"\r")
    yield "no header at all", b"no header at all"
    yield "no empty line behind the headers", head + b"Subject: no end"
    yield "an empty line first", b"\n" + head + b"\nbody"
    yield "a header without a colon", b"From ann\nSubject\n:\n: x\nA:\n\nbody"
    yield "a folded line first", b"  folded first\nSubject: s\n\nbody"
    yield "an mbox line first", b"From ann@bench.invalid Tue Nov 14 10:00:00 2023\n" + head + b"\nFrom here\n>From there\n"
    yield "a header of 200,000 bytes", head + b"Subject: " + b"y" * 200_000 + b"\n\nbody"
    yield "10,000 headers", b"".join(b"X-%d: y\n" % number for number in range(10_000)) + b"\nbody"
    yield "10,000 folded lines", b"Subject: a\n" + b" b\n" * 10_000 + b"\nbody"
    yield "headers in bytes that aren't UTF-8", b"From: \xff\xfe\nSubject: \x80\x81\xc3(\nMessage-ID: <\xff@x>\n\n\xff"
    yield "control characters in headers", b"Subject: a\tb\x1b[31mred\x07\x7f\nFrom: \x00\x01 <a@b>\n\nb"
    yield "a direction mark and no-width characters", head + "Subject: a\u202eb\u200bc\ufeff\n\nb".encode()
    for date in (b"", b"yesterday", b"Tue, 99 Foo 2023 25:61:61 +9999", b"Mon, 1 Jan 0001 00:00:00 +0000", b"Fri, 31 Dec 99999 23:59:60 -0000", b"1 Jan 70", b"Thu, 29 Feb 2100 10:00:00 +0000"):
        yield f"date {date.decode()!r}", b"From: a@b\nDate: " + date + b"\nSubject: date\n\nb\n"
    yield "two dates, two senders", b"Date: Tue, 14 Nov 2023 10:00:00 +0000\nDate: Wed, 15 Nov 2023 10:00:00 +0000\nFrom: a@b\nFrom: c@d\n\n"
    yield "one Message-ID, one", b"Message-ID: <same@bench.invalid>\nSubject: one\n\none\n"
    yield "one Message-ID, two", b"Message-ID: <same@bench.invalid>\nSubject: two\n\ntwo\n"
    yield "an empty Message-ID", b"Message-ID:\n\na"
    yield "two that differ in the last byte, one", head + b"\nlast 1"
    yield "two that differ in the last byte, two", head + b"\nlast 2"
    yield "as a message of the program's log", b"mailrep\x01\0\0\0\0digest 0123 size 4\n"


def deliver_hard(root, count):
    """Writes hard mails, hard names, and so many usual ones in all. What each is by its digest, and how many have names that are passed over."""
    numbers, wanted = random.Random(11), {}

    def write(what, folder, name, body, part="cur"):
        path = os.path.join(os.fsencode(folder_path(root, folder, layout_of(root))), part.encode(), name if isinstance(name, bytes) else name.encode())
        with open(path, "wb") as file:
            file.write(body)
        wanted[hashlib.sha256(body).hexdigest()] = what

    for number, (what, body) in enumerate(odd_mails(numbers)):
        write(what, ("inbox", "f0", "Sent Items", "a/b/c", "Entwürfe", "日本", "UPPER", "-x_y", "f" * 190)[number % 9], f"{1600000000 + number}.odd{number}.bench" + ("", ":2,", ":2,S", ":2,FRS", ":2,DT")[number % 5], body, "new" if number % 5 == 0 else "cur")
    for number, name in enumerate(("spaces in the name:2,S", "quotes\"'`$(x);&|<>*?\\:2,S", "a" * 240, "no-flags", ":2,S", "colon:colon:2,F", "unknown:2,Sabz", "unsorted:2,TSRF", "twice:2,SSFF", "other:1,experimental", "semicolon;2,S",
                                    "line\nfeed:2,S", "tab\tname:2,S", "-dash:2,S", "ünï-日本:2,S", "comma,comma:2,S", "U=17,S=500:2,S", "e\u0301combined:2,S")):
        write(f"name {name!r}", "f0", name, b"Subject: name %d\n\nname %d\n" % (number, number))
    twice = b"Subject: twice\n\nin two folders\n"
    write("in two folders", "f0", "twice.bench:2,S", twice)
    write("in two folders", "f1", "twice.bench:2,S", twice)
    again = b"Subject: twice\n\ntwice in one folder\n"
    write("twice in one folder", "f1", "again1.bench:2,S", again)
    write("twice in one folder", "f1", "again2.bench:2,S", again)
    passed_over = 0
    for name in (b"\xff\xfe-name:2,S", b"latin-\xfc:2,S", b"\xed\xa0\x80:2,S"):
        path = os.path.join(os.fsencode(folder_path(root, "f0", layout_of(root))), b"cur", name)
        with open(path, "wb") as file:
            file.write(b"Subject: bad name\n\n" + name)
        passed_over += 1
    for number in range(max(0, count - len(wanted))):
        body = mail(number)
        deliver_one(root, number, f"f{number % 3}", "S", body)
        wanted[hashlib.sha256(body).hexdigest()] = f"mail {number}"
    return wanted, passed_over
