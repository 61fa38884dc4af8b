"""mbsync, dsync, muchsync and unison beside mailfold, for `tools/mailfold-trials beside`.

Each program syncs the same mail between two folders of this machine, over a relay that counts bytes where it talks over a stream:
a first sync, an idle one, and one behind 1 % new and 1 % flagged mails. Processor time is that of both ends, without the relay's.
Then one question is put to each: mail that is taken out of what is synced, or stands no more on one side, is it gone on the other?
"""

import ctypes
import os
import pwd
import re
import resource
import shutil
import subprocess
import sys

import mailfold_mails as mails

RELAY = os.path.abspath(__file__)
SET_CHILD_SUBREAPER = 36
PYTHON = shutil.which("python3", path="/usr/bin:/bin") or sys.executable
# Dovecot refuses root, so root runs all of them as the user `mail`.
OTHER = pwd.getpwnam("mail").pw_uid if os.geteuid() == 0 else None
USER = pwd.getpwuid(OTHER or os.getuid()).pw_name


def relay(counted, words):
    """Runs a command, carries standard input and output, and adds what it counted to the file `counted`."""
    import threading

    child = subprocess.Popen(words, stdin=subprocess.PIPE, stdout=subprocess.PIPE, bufsize=0)
    counts = [0, 0]

    def carry(which, source, target):
        try:
            while part := os.read(source, 1 << 16):
                counts[which] += len(part)
                while part:
                    part = part[os.write(target, part) :]
        except OSError:
            pass
        try:
            os.close(target)
        except OSError:
            pass

    there = threading.Thread(target=carry, args=(0, 0, os.dup(child.stdin.fileno())), daemon=True)
    child.stdin.close()
    there.start()
    carry(1, child.stdout.fileno(), 1)
    status = child.wait()
    own, inner = resource.getrusage(resource.RUSAGE_SELF), resource.getrusage(resource.RUSAGE_CHILDREN)
    with open(counted, "a") as told:
        told.write(f"{sum(counts)} {own.ru_utime + own.ru_stime} {inner.ru_utime + inner.ru_stime}\n")
    os._exit(status)


def spent(words, **surroundings):
    """Runs a command and all that it began to their ends: processor seconds without the relay's, bytes over the relay, and what it said."""
    counts = os.path.abspath("counts")
    open(counts, "w").close()
    if OTHER is not None:
        subprocess.run(["chown", "-R", USER + ":", "."], check=True)
    told = open("told", "wb+")
    ctypes.CDLL(None).prctl(SET_CHILD_SUBREAPER, 1)
    child = subprocess.Popen(words, stdin=subprocess.DEVNULL, stdout=told, stderr=told, user=OTHER, group=OTHER and pwd.getpwuid(OTHER).pw_gid, extra_groups=OTHER and [], env={**os.environ, "HOME": os.getcwd(), **surroundings})
    cpu = 0
    while True:
        try:
            pid, status, used = os.wait4(-1, 0)
        except ChildProcessError:
            break
        cpu += used.ru_utime + used.ru_stime
        if pid == child.pid:
            child.returncode = os.waitstatus_to_exitcode(status)
    told.seek(0)
    text = told.read().decode(errors="replace").strip()
    lines = [line.split() for line in open(counts)]
    return cpu - sum(float(line[1]) for line in lines), sum(int(line[0]) for line in lines), child.returncode, text


def files_of(root):
    """The bytes of each mail below a folder, with its folder and whether it is flagged."""
    found = []
    for where, folders, names in os.walk(root):
        folders[:] = [name for name in folders if name not in (".mailfold", ".notmuch")]
        if os.path.basename(where) in ("cur", "new"):
            for name in names:
                with open(f"{where}/{name}", "rb") as file:
                    found.append((re.sub(rb"X-TUID: .*\n", b"", file.read()), "F" in name.split(":2,")[-1]))
    return sorted(found)


class Mailfold:
    """mailfold, over the relay."""

    only = None

    def __init__(self, program):
        self.program = program

    def begin(self):
        for number, root in enumerate("AB"):
            keeps = ["--filter", f"label:{self.only}"] if self.only and root == "B" else []
            subprocess.run([self.program, "init", root, "--id", str(number), "--layout", "plain", *keeps], check=True)
        self.command = ["sh", "-c", f"mkfifo pipe 2>/dev/null; {PYTHON} {RELAY} --relay counts {self.program} serve A <pipe | {self.program} sync B >pipe"]

    def sync(self):
        return spent(self.command)


class Mbsync:
    """mbsync, with Dovecot's imap as the other side, over the relay."""

    only = None

    def begin(self):
        os.makedirs("home", exist_ok=True)
        here = os.getcwd()
        imap = f"{PYTHON} {RELAY} --relay {here}/counts /usr/lib/dovecot/imap"
        with open("dovecot.conf", "w") as config:
            config.write(f"mail_location = maildir:{here}/A:LAYOUT=fs\nlog_path = {here}/dovecot.log\nmail_fsync = optimized\nssl = no\n"
                         "namespace inbox {\n inbox = yes\n separator = /\n}\nmailbox_list_index = yes\nfirst_valid_uid = 1\nfirst_valid_gid = 1\n")
        with open("mbsyncrc", "w") as config:
            config.write(f"FSync yes\n\nIMAPStore far\nTunnel \"USER={USER} HOME={here}/home {imap} -c {here}/dovecot.conf\"\n\nMaildirStore near\nPath {here}/B/\nInbox {here}/B/inbox\nSubFolders Verbatim\n\n"
                         f"Channel all\nFar :far:\nNear :near:\nPatterns {self.only or 'f0 f1 f2'}\nCreate Both\nExpunge Both\nRemove Both\nSyncState {here}/state/\nCopyArrivalDate yes\n")
        os.makedirs("state", exist_ok=True)

    def sync(self):
        return spent(["mbsync", "-c", "mbsyncrc", "-a", "-q"])


class Dsync:
    """dsync of Dovecot, two processes over the relay."""

    only = None

    def begin(self):
        here = os.getcwd()
        for root in "AB":
            os.makedirs(f"home{root}", exist_ok=True)
            with open(f"dovecot{root}.conf", "w") as config:
                config.write(f"mail_location = maildir:{here}/{root}:LAYOUT=fs\nmail_home = {here}/home{root}\nlog_path = {here}/dovecot{root}.log\nssl = no\nfirst_valid_uid = 1\nfirst_valid_gid = 1\n"
                             "namespace inbox {\n inbox = yes\n separator = /\n}\nservice stats {\n}\n")
        with open("there", "w") as script:
            script.write(f"#!/bin/sh\nexec env -i PATH=/usr/bin:/bin USER={USER} HOME={here}/homeA {PYTHON} {RELAY} --relay {here}/counts doveadm -c {here}/dovecotA.conf -o stats_writer_socket_path= dsync-server\n")
        os.chmod("there", 0o755)

    def sync(self):
        return spent(["doveadm", "-c", "dovecotB.conf", "-o", "stats_writer_socket_path=", "sync", "-R", *(["-m", self.only] if self.only else []), os.getcwd() + "/there"], USER=USER, HOME=os.getcwd() + "/homeB")


class Muchsync:
    """muchsync, with notmuch on both sides, over the relay."""

    def begin(self):
        here = os.getcwd()
        for root in "AB":
            with open(f"notmuch{root}", "w") as config:
                config.write(f"[database]\npath={here}/{root}\n[new]\ntags=\nignore=\n[search]\nexclude_tags=\n[maildir]\nsynchronize_flags=true\n[user]\nname=a\nprimary_email=a@b\n")
        with open("there", "w") as script:
            script.write(f"#!/bin/sh\nexec env NOTMUCH_CONFIG={here}/notmuchA {PYTHON} {RELAY} --relay {here}/counts muchsync --server\n")
        os.chmod("there", 0o755)

    def sync(self):
        return spent(["muchsync", "-s", os.getcwd() + "/there", "far"], NOTMUCH_CONFIG=os.getcwd() + "/notmuchB")


class Unison:
    """unison, two processes over the relay."""

    only = None

    def begin(self):
        here = os.getcwd()
        os.makedirs("unisonA", exist_ok=True), os.makedirs("unisonB", exist_ok=True)
        with open("there", "w") as script:
            script.write(f"#!/bin/sh\nexec env UNISON={here}/unisonA {PYTHON} {RELAY} --relay {here}/counts unison -server\n")
        os.chmod("there", 0o755)

    def sync(self):
        here = os.getcwd()
        return spent(["unison", "-batch", "-silent", *(["-path", self.only] if self.only else []), "-sshcmd", f"{here}/there", f"{here}/B", f"ssh://far/{here}/A"], UNISON=f"{here}/unisonB")


def compare(program, count, say):
    """The same work for each program that is installed."""
    others = [("mailfold", Mailfold(program), True), ("mbsync", Mbsync(), shutil.which("mbsync") and os.path.exists("/usr/lib/dovecot/imap")),
              ("dsync", Dsync(), shutil.which("doveadm")), ("muchsync", Muchsync(), shutil.which("muchsync")), ("unison", Unison(), shutil.which("unison"))]
    top = os.getcwd()
    os.chmod(top, 0o755)
    for name, other, is_there in others:
        if not is_there:
            say(f"{name}: not installed")
            continue
        room = f"{top}/{name}"
        os.makedirs(room), os.chdir(room)
        os.makedirs("A"), os.makedirs("B")
        body = mails.deliver_plain("A", 0, count)
        other.begin()
        rows = []
        for what in ("first", "again", "idle", "idle", "1 %", "after"):
            if what == "1 %":
                mails.flag_one_percent("A")
                new = mails.deliver_plain("A", count, count + count // 100)
            cpu, carried, status, text = other.sync()
            rows.append((what, cpu, carried))
            if status != 0:
                say(f"{name}, {what}: status {status}: {text[-300:]}")
        same = files_of("A") == files_of("B")
        first, _, idle, idle2, small, _ = rows
        say(f"{name}: first {first[1]:.2f} s, {1000 * first[1] / count:.3f} ms a mail, {first[2]} bytes, {first[2] / body:.3f} of the bodies; again {rows[1][1]:.3f} s, {rows[1][2]} bytes; "
            f"idle {min(idle[1], idle2[1]):.3f} s, {idle2[2]} bytes; 1 % {small[1]:.3f} s, {small[2]} bytes, {small[2] / new:.3f} of the new bodies; both sides alike: {same} ({len(files_of('B'))} mails)")
        os.chdir(top)
        shutil.rmtree(room, ignore_errors=True)


def ask_of_left_out(program, say):
    """Where one folder alone is synced, and a mail is moved out of it on the one side: has the other side the mail still?"""
    others = [("mailfold", Mailfold(program), True), ("mbsync", Mbsync(), shutil.which("mbsync") and os.path.exists("/usr/lib/dovecot/imap")),
              ("dsync", Dsync(), shutil.which("doveadm")), ("unison", Unison(), shutil.which("unison"))]
    top = os.getcwd()
    for name, other, is_there in others:
        if not is_there:
            continue
        room = f"{top}/left-{name}"
        os.makedirs(room), os.chdir(room)
        os.makedirs("A"), os.makedirs("B")
        mails.deliver_plain("A", 0, 9)
        other.only = "f0"
        other.begin()
        for _ in range(2):
            other.sync()
        came = [f"B/f0/{part}/{file}" for part in ("cur", "new") for file in os.listdir(f"B/f0/{part}")]
        moved = sorted(came)[0]
        with open(moved, "rb") as file:
            body = re.sub(rb"X-TUID: .*\n", b"", file.read())
        os.makedirs("B/f9/cur"), os.makedirs("B/f9/new"), os.makedirs("B/f9/tmp")
        os.rename(moved, "B/f9/cur/" + os.path.basename(moved))
        told = [other.sync()[2:] for _ in range(3)]
        left = sum(each == body for each, _ in files_of("A"))
        say(f"{name}, f0 alone is synced, {len(came)} mails came, and one is moved to f9 at B: A has it {'still' if left else 'no more: it was taken for deleted'}; statuses {[status for status, _ in told]}")
        os.chdir(top)
        shutil.rmtree(room, ignore_errors=True)


if __name__ == "__main__" and sys.argv[1:2] == ["--relay"]:
    relay(sys.argv[2], sys.argv[3:])
