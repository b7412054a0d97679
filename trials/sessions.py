"""What the scripts that compare and fuzz share: sessions that two programs answer, and the smallest one that they answer
otherwise."""

import os
import re
import subprocess
import tempfile
import threading

from runs import BUILD

# within which a session has to end
SECONDS = 120
# the bytes of a read, where an input comes in pieces
PIECES = (1, 2, 3, 7, 4096)
# the words for programs that have the commands on files
FILING = ("files", "nearest", "blurred", "ranges", "all")
# what is in the folder at the start of a session with files
FILES = {
    "cars": "name,x,x.rate,y,y.rate,fuel,plate,load\nc0,1,0.5,2,-1,3,a b,4\nc1,-5,1,5,0,0.001,,-2.5\nc0,0,0,0,0,1,b,0\n",
    "rates": "name,fuel.rate,x.rate,x\r\nc0,1,-1,2\r\n\r\nc2,0.5,1,-3\r\n",
    "quoted": '\ufeffname,plate,load\nc1,"a,b",1\n"c2",b"c,"2"\nc0,"a"b,3',
    "names": "name\np0\np1\np2\n",
    "tanks": "name,label,level\nt0,a,5\nt1,b,-5\nc1,a,1\n",
    "moved": "name,x,y\np0,1000000000,-1000000000\np1,0,0.25\n",
    "header": "name,x\n",
    "empty": "\n\n",
    "twice": "name,x,x\nc0,1,1\n",
    "short": "name,x,y\nc0,1\n",
    "large": "name,x\nc0,1\nc1,1000000000.001\n",
    "texts": 'name,plate\nc0,"a\tb"\n',
    "words": "name,x\nc0,1\ntick,2\n",
    "steep": "name,x.rate\nc0,1000\nc1,-1000.001\n",
    "point": "name,fuel\nc0,.5\n",
    "other": "name,nothing\nc0,1\n",
    "full": "name,x\nc0,1\nc5,1\nc6,1\nc7,1\nc8,1\n",
}
# what is asked of a session that goes on from the text "s1"
ASKS = b"list\n" + b"".join(b"show w%d\n" % i for i in range(4))


def put(folder, name, content):
    """Writes a file of a folder."""
    with open(os.path.join(folder, name), "wb") as file:
        file.write(content)


def run(program, text, folder):
    """What a program writes for an input in a folder, and its status: None where it didn't end in time."""
    try:
        ended = subprocess.run(program, input=text, capture_output=True, cwd=folder, timeout=SECONDS, check=False)
    except subprocess.TimeoutExpired as stopped:
        return stopped.stdout or b"", None
    return ended.stdout, ended.returncode


def run_alone(program, text):
    """What is written for a text in an empty folder, and the status."""
    with tempfile.TemporaryDirectory(dir=BUILD) as folder:
        return run(program, text, folder)


def run_in_pieces(program, text, size):
    """The same for a text that comes in pieces of a size, one at each read."""
    with tempfile.TemporaryDirectory(dir=BUILD) as folder:
        return run_fed(program, text, size, folder)


def run_fed(program, text, size, folder):
    # each write to such a pipe is a packet of its own, and a read takes no more than one
    reading, writing = os.pipe2(os.O_DIRECT | os.O_CLOEXEC)
    child = subprocess.Popen(program, stdin=reading, stdout=subprocess.PIPE, cwd=folder)
    os.close(reading)

    def feed():
        try:
            for at in range(0, len(text), size):
                os.write(writing, text[at:at + size])
        except BrokenPipeError:
            pass
        os.close(writing)

    feeding = threading.Thread(target=feed)
    feeding.start()
    written, _ = child.communicate()
    feeding.join()
    return written, child.returncode


def split(written, status):
    """The reply to each line as its lines, and what came at the end, if that is anything."""
    all_replies, reply = [], []
    for line in written.decode(errors="replace").splitlines():
        reply.append(line)
        if line == "ok" or line.startswith("refused "):
            all_replies.append(reply)
            reply = []
    if status is None:
        reply.append(f"no end within {SECONDS} seconds")
    elif status != 0 or reply:
        reply.append(f"status {status}")
    return all_replies + ([reply] if reply else [])


def replies(program, text, files=None):
    """The reply to each line of a text, and what came at the end. Where files are given, by name, the session is in a
    folder with them; then follow the files that are there at its end, and what a saved session goes on with."""
    with tempfile.TemporaryDirectory(dir=BUILD) as folder:
        for name, content in (files or {}).items():
            put(folder, name, content)
        found = split(*run(program, text, folder))
        for name in sorted(os.listdir(folder)):
            with open(os.path.join(folder, name), "rb") as file:
                found.append([f"file {name}", *file.read().decode(errors="replace").split("\n")])
        if os.path.exists(os.path.join(folder, "s1")):
            found += split(*run([*program, "--session", "s1"], ASKS, folder))
        return found


def first_difference(ours, plain):
    """The place of the first reply that differs, and it on both sides; or nothing."""
    for place in range(max(len(ours), len(plain))):
        of = [all_replies[place] if place < len(all_replies) else ["nothing"] for all_replies in (ours, plain)]
        if of[0] != of[1]:
            return place, of
    return None


def without_runs(lines, is_wrong):
    """The lines without those that it needs no more, runs of them first."""
    size = len(lines) // 2
    while size > 0:
        at = len(lines) - size
        while at >= 0:
            fewer = lines[:at] + lines[at + size:]
            if is_wrong(fewer):
                lines = fewer
            at -= size
        size //= 2
    return lines


def smallest(lines, is_wrong, smaller_lines):
    """A session as small as it gets that is still wrong: with lines left out, or with smaller ones."""
    shrunk = True
    while shrunk:
        fewer = without_runs(lines, is_wrong)
        shrunk = len(fewer) < len(lines)
        lines = fewer
        for i, line in enumerate(lines):
            for other in smaller_lines(line):
                if is_wrong(lines[:i] + [other] + lines[i + 1:]):
                    lines, shrunk = lines[:i] + [other] + lines[i + 1:], True
                    break
    return lines


def show(title, lines, sides):
    """A session, and the replies of each side."""
    print(title)
    for line in lines:
        print(f"    {line}")
    for name, reply in sides:
        print(f"{name}:")
        for line in reply:
            print(f"    {line}")


def smaller_lines(line):
    """A line with a word or a byte left out."""
    for found in re.finditer(rb"\S+\s*|\s+", line):
        yield line[:found.start()] + line[found.end():]
    if len(line) < 200:
        yield from (line[:i] + line[i + 1:] for i in range(len(line)))
