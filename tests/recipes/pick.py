"""Presses keys in a program on a terminal, as a person would: once a text is seen the keys are sent, each pair in turn.

    python3 pick.py FILE-FOR-OUTPUT SEEN KEYS [SEEN KEYS..] -- COMMAND..
"""

import fcntl
import os
import pty
import select
import signal
import struct
import sys
import termios
import time

output = sys.argv[1]
end = sys.argv.index("--")
pairs = list(zip(sys.argv[2:end:2], sys.argv[3:end:2]))
command = sys.argv[end + 1 :]
pid, fd = pty.fork()
if pid == 0:
    os.environ["TERM"] = "xterm"
    os.execvp(command[0], command)
fcntl.ioctl(fd, termios.TIOCSWINSZ, struct.pack("HHHH", 24, 200, 0, 0))
said, seen_until, limit = b"", 0, time.time() + 30
while time.time() < limit:
    if select.select([fd], [], [], 0.05)[0]:
        try:
            new = os.read(fd, 65536)
        except OSError:
            break
        if not new:
            break
        said += new
    elif pairs and pairs[0][0].encode() in said[seen_until:]:
        seen_until = len(said)
        os.write(fd, pairs.pop(0)[1].encode().decode("unicode_escape").encode("latin-1"))
else:
    os.kill(pid, signal.SIGKILL)
with open(output, "wb") as file:
    file.write(said)
status = os.waitpid(pid, 0)[1]
sys.exit(os.waitstatus_to_exitcode(status) if not os.WIFSIGNALED(status) else 99)
