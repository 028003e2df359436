"""Types lines with TAB into a shell on a terminal, over files whose keywords, tags and names are made to be run, expanded or written raw.

    python3 typed.py SHELL COMPLETION ORGQ FOLDER

For each line: nothing is run and no file comes into being, no control character of a word reaches the terminal, and the word
that the program is given is the word that is meant. Prints a line for each failure, and then `N passed, M failed`.
"""

import os
import pty
import select
import signal
import subprocess
import sys
import time

shell, completion, orgq, folder = sys.argv[1:5]
room = os.path.join(folder, "room")  # where the shell stands; nothing may come into being here
words = os.path.join(folder, "words.org")
record = os.path.join(folder, "record")
passed, failed = 0, 0

# The program of the shell's path: what a completion asks is answered by the true one, all else is noted.
STUB = """#!/bin/sh
case " $* " in
    *" --help "* | " keywords " | " tags " | *" views "* | " check --only ? " | " todo --format "*) exec '{orgq}' "$@" ;;
esac
printf '%s\\0' "$@" > '{record}.new' && mv '{record}.new' '{record}'
"""

# What runs where it is expanded: each makes a file in the room.
RUN = ["$(touch${IFS}canary)", "`touch${IFS}canary`", "${X:=$(touch${IFS}canary)}", ";touch${IFS}canary;", "|touch${IFS}canary", "&touch${IFS}canary"]
ODD = ["${HOME}", "$HOME", "a'b", 'a"b', "a'\"b", "*", "?", "[a]", "{a,b}", "a\\b", "\\", "a#b", "!!", "!x", "~", "a=b", "a:b", "a@b", ">x", "a%b", "日本"]
# A title of the terminal, a colour by a character of Latin-1, a bell.
RAW = ["\x1b]0;own\x07", "\u009b31mown", "\x07own", "\x7fown"]


def is_raw(said):
    return any(it.encode() in said for it in RAW)


class Shell:
    def __init__(self):
        self.said = b""
        environment = {
            "PATH": folder + "/bin:" + os.environ["PATH"], "HOME": folder + "/home", "TERM": "xterm", "LC_ALL": "C.UTF-8",
            "ORGQ_FILES": words, "XDG_CONFIG_HOME": folder + "/home", "XDG_DATA_HOME": folder + "/home", "fish_history": "",
        }
        command = {
            "bash": ["bash", "--norc", "--noprofile", "-i"], "zsh": ["zsh", "-f", "-i"], "fish": ["fish", "--no-config", "-i"],
        }[shell]
        self.pid, self.fd = pty.fork()
        if self.pid == 0:
            os.chdir(room)
            os.execvpe(command[0], command, environment)
        begin = {
            "bash": "set +o history -o histexpand; . '%s'" % completion,
            "zsh": "mkdir -p {0}/zsh; cp '{1}' {0}/zsh/_orgq; fpath=({0}/zsh $fpath); autoload -Uz compinit && compinit -u -d {0}/dump".format(folder, completion),
            "fish": "function fish_title; end; source '%s'" % completion,
        }[shell]
        self.hear(1)
        self.line(begin)
        self.run("begun")
        self.said = b""

    def hear(self, seconds, until=None):
        """Takes what the shell writes, so many seconds, or until something is true or stands there."""
        end = time.time() + seconds
        while time.time() < end:
            if until and until():
                return True
            if select.select([self.fd], [], [], 0.02)[0]:
                try:
                    self.said += os.read(self.fd, 65536)
                except OSError:
                    return False
        return bool(until and until())

    def type(self, text):
        os.write(self.fd, text.encode("utf-8", "surrogateescape"))

    def line(self, text):
        self.type(text + "\r")

    def run(self, typed):
        """What the program is given where a line is typed: its words, or None where it isn't called."""
        if os.path.exists(record):
            os.remove(record)
        self.line("orgq " + typed)
        if not self.hear(20, lambda: os.path.exists(record)):
            return None
        with open(record, "rb") as file:
            return file.read().decode("utf-8", "surrogateescape").split("\0")[:-1]

    def list(self, typed, mark):
        """What is written where the words at a line's end are listed, which one of them is `mark`."""
        self.said = b""
        self.type("orgq " + typed + ("\t\t" if shell == "bash" else "\t"))
        seen = self.hear(20, lambda: mark.encode() in self.said)
        self.hear(0.2)
        self.type("\x15")
        return seen

    def end(self):
        os.kill(self.pid, signal.SIGKILL)
        os.close(self.fd)
        os.waitpid(self.pid, 0)


def tell(name, is_so, found=""):
    global passed, failed
    if is_so:
        passed += 1
    else:
        failed += 1
        print("%s, %s: %s" % (shell, name, ascii(found)))


def write(text):
    with open(words, "wb") as file:
        file.write(text.encode("utf-8", "surrogateescape"))


def attempt(name, typed, wanted):
    """Types a line and TAB behind it. `wanted` is what the program is given, or a list of what it may be given."""
    global it
    before = sorted(os.listdir(room))
    it.said = b""
    found = it.run(typed + "\t")
    may_be = wanted if wanted and isinstance(wanted[0], list) else [wanted]
    after = sorted(os.listdir(room))
    tell(name + ": something was run", before == after, [file for file in after if file not in before])
    for file in after:
        if file not in before:
            os.remove(os.path.join(room, file))
    tell(name + ": raw", not is_raw(it.said), it.said)
    tell(name + ": a complaint", b": line " not in it.said and b"(line " not in it.said, it.said)
    tell(name + ": the word", found in may_be, found)
    if found is None:
        # The line waits for its end: another shell goes on.
        it.end()
        it = Shell()


os.makedirs(folder + "/bin")
os.makedirs(folder + "/home")
os.makedirs(room)
with open(folder + "/bin/orgq", "w") as file:
    file.write(STUB.format(orgq=orgq, record=record))
os.chmod(folder + "/bin/orgq", 0o755)
write("* a\n")
it = Shell()

# Keywords and tags. A round bracket in a keyword begins its key, and a blank ends it.
keywords = [word for word in RUN + ODD if "(" not in word and "|" not in word] + ["$`touch${IFS}canary`"]
for word in keywords:
    write("#+TODO: TODO Z%s | DONE\n* a\n" % word)
    attempt("keyword Z" + word, "todo Z", ["todo", "Z" + word])
for word in [word for word in RUN + ODD if ":" not in word]:
    write("#+FILETAGS: :Z%s:\n* a\n" % word)
    attempt("tag Z" + word, "agenda --tag Z", ["agenda", "--tag", "Z" + word])
# Behind a place, which bash takes apart at its colon.
for word in ["", RUN[1], "a'b", "a:b"]:
    write("#+TODO: TODO Z%s | DONE\n* a\n" % word)
    attempt("keyword Z%s of a place" % word, "set words.org:2 Z", ["set", "words.org:2", "Z" + word])
# Within quotes that are open; a mark of exclamation stands in no double quotes.
for quote in "'\"":
    for word in [RUN[1], "${HOME}", "a'b", 'a"b', "a\\b", "!!", "a:b", "~"]:
        write("#+TODO: TODO Z%s | DONE\n* a\n" % word)
        if (shell, quote, "!" in word) == ("bash", '"', True):
            attempt('keyword "Z' + word, 'todo "Z\t"', [["todo", "Z"], ["todo", "Z" + word]])
        else:
            attempt("keyword %sZ%s" % (quote, word), "todo %sZ" % quote, ["todo", "Z" + word])
# Control characters: such a word isn't offered, or it is the one that is meant.
for word in RAW:
    write("#+TODO: TODO Z%s | DONE\n* a\n" % word)
    attempt("keyword Z" + word, "todo Z", [["todo", "Z"], ["todo", "Z" + word]])
    write("#+TODO: TODO Z%s ZEND Zmore Z%s2 | DONE\n* a\n" % (word, word))
    tell("a list of keywords with %r" % word, it.list("todo Z", "ZEND") and not is_raw(it.said), it.said)
    write("#+FILETAGS: :Z%s:ZEND:Zmore:\n* a\n" % word)
    tell("a list of tags with %r" % word, it.list("agenda --tag Z", "ZEND") and not is_raw(it.said), it.said)
write("#+FILETAGS: :Za\rown:ZEND:Zmore:\n* a\n")
tell("a list of tags with a return", it.list("agenda --tag Z", "ZEND") and b"\rown" not in it.said, it.said)
write("#+FILETAGS: :Za\0b:\n* a\n")
attempt("a tag with a NUL", "agenda --tag Z", ["agenda", "--tag", "Z"])
# A word that begins with a minus would be an option.
write("#+TODO: -Z --version | DONE\n* a\n")
attempt("a keyword with a minus", "todo -Z", ["todo", "-Z"])
tell("no minus among words", it.list("todo ", "DONE") and b"-Z" not in it.said and b"--version" not in it.said, it.said)
# Where nothing is offered nothing is run.
write("#+CATEGORY: Z`touch${IFS}canary`\n* Z$(touch canary) :Z:\n")
attempt("a category", "agenda --category Z", ["agenda", "--category", "Z"])
attempt("an expression", "match Z", ["match", "Z"])

# Where a heading is named, short ids of open headings are offered with their titles: of one the id is put on the line, and of several
# the titles are written, and not raw.
def id_of(place):
    """The short id of an open heading of the words' file, by its place among them."""
    said = subprocess.run([orgq, "-f", words, "todo", "--format", "{id}"], capture_output=True, check=False)
    return said.stdout.decode().split("\n")[place]


for word in RUN + ODD + RAW + ["a\x1b]0;own\x07b $(touch canary)"]:
    write("* TODO Z%s\n" % word)
    for command in ["done", "set", "schedule", "deadline", "clock in"]:
        if word in (RUN[0], RAW[0]) or command == "done":
            attempt("a heading Z%s, %s" % (word, command), command + " ", [*command.split(), id_of(0)])
    write("* TODO Z%s\n* TODO ZEND\n* TODO Z%s two\n" % (word, word))
    tell("a list of headings with %r" % word, it.list("done ", "ZEND" if shell != "bash" else id_of(1)) and not is_raw(it.said), it.said)
    tell("a list of headings with %r: something was run" % word, not os.listdir(room), os.listdir(room))

# What the command line itself holds isn't run either.
write("#+TODO: TODO Z | DONE\n* a\n")
for typed in ["todo $(touch canary", "todo `touch canary", "-f $(touch canary", "agenda --tag \"$(touch canary"]:
    it.type("orgq " + typed + "\t\t")
    it.hear(1)
    it.type("\x15")
    it.hear(0.2)
    tell("a line %r: something was run" % typed, not os.path.exists(room + "/canary"))
    if os.path.exists(room + "/canary"):
        os.remove(room + "/canary")
    it.end()
    it = Shell()

# Names of files.
names = [word for word in RUN + ODD if "/" not in word and word] + ["a b", "a\tb", "a\nb", " ", "a  b", "$'a'"] + RAW
for name in names:
    path = os.path.join(room, "Z%s.org" % name)
    open(path, "w").close()
    for typed in ["-f Z", "agenda -f Z", "done Z"]:
        wanted = [typed.split()[:-1] + ["Z%s.org" % name]]
        if shell == "fish" and any(it in name for it in "\t\n\u009b"):
            wanted = [typed.split()]  # what fish takes apart, or writes raw itself, isn't offered
        attempt("file Z%s.org, %s" % (name, typed), typed, wanted)
    os.remove(path)
# Below a folder, and beside others that begin the same.
for name in RUN[:2] + ["a b", "$HOME", "*"]:
    os.mkdir(os.path.join(room, "Z" + name))
    path = os.path.join(room, "Z" + name, "in.org")
    open(path, "w").close()
    attempt("folder Z%s" % name, "-f Z\tin", ["-f", "Z%s/in.org" % name])
    os.remove(path)
    os.rmdir(os.path.join(room, "Z" + name))
for raw in RAW:
    for name in ["Z%s.org" % raw, "Z%s2.org" % raw, "ZEND.org"]:
        open(os.path.join(room, name), "w").close()
    tell("a list of files with %r" % raw, it.list("-f Z", "ZEND") and not is_raw(it.said), it.said)
    for name in os.listdir(room):
        os.remove(os.path.join(room, name))
# A name that begins with a minus is no option.
for name in ["-Z.org", "--version.org"]:
    open(os.path.join(room, name), "w").close()
    for typed in ["-f ", "done "]:
        attempt("file %s, %s" % (name, typed), typed, [typed.split() + ["./" + name], typed.split()])
    os.remove(os.path.join(room, name))
# A name that begins with a tilde is no person's home.
open(os.path.join(room, "~Z.org"), "w").close()
attempt("file ~Z.org", "-f \\~", [["-f", "~Z.org"], ["-f", "./~Z.org"]])
os.remove(os.path.join(room, "~Z.org"))
open(folder + "/home/Z of home.org", "w").close()
attempt("a file of the home", "-f ~/Z", ["-f", folder + "/home/Z of home.org"])

it.end()
print("%d passed, %d failed" % (passed, failed))
sys.exit(1 if failed else 0)
