"""What `compare_users` and `fuzz_users` share: who sends a line, what each user is told, and the two programs."""

import os
import sys

sys.path.append(os.path.join(os.path.dirname(os.path.abspath(__file__)), os.pardir, "bench"))

from runs import plain_program, proved_program
from sessions import run_alone, show, smaller_lines, smallest

# of one to eight bytes, which the first eight users have
USERS = (b"ann", b"bob", b"_", b"u2", b"A_longer", b"gate", b"Tick", b"x9")
OTHERS = (b"ninth", b"Z", b"now", b"anna", b"an")
# what is no line of a user; the last ones begin with a name that is too long, with reserved words and with what is no name
NOBODY = (
    b"", b" ", b"ann", b"? list", b"# list", b" ann list", b"ann\tlist", b"ann,list", b"ann: list", b"\xff list", b"ann\xff list",
    b"too_longs list", b"name_of_33_letters_is_one_too_big list", b"tick 4", b"list", b"at list", b"TRUE list", b"7up list",
    b"\"ann\" list", b"- list", b"ann\x00list", b"ann\r",
)


class Seats:
    """Who sends the next line: of the eight users some from the beginning on, and each other one from some line on."""

    def __init__(self, draw, count):
        self.draw = draw
        self.users = list(USERS)
        draw.shuffle(self.users)
        # of the first ones none waits
        self.begin = sorted([0] * draw.randint(1, 4) + [draw.randrange(count * 3 // 4 + 1) for _ in USERS])[:len(USERS)]
        self.sent = 0

    def sent_by(self, line):
        """The line as the next one of the input."""
        here = [user for user, begin in zip(self.users, self.begin) if begin <= self.sent]
        self.sent += 1
        sort = self.draw.randrange(100)
        if sort == 0:
            return self.draw.choice(NOBODY)
        if sort < 3 and len(here) == len(USERS):
            return self.draw.choice(OTHERS) + b" " + line
        return self.draw.choice(here) + b" " + line


class Programs:
    """DOMINO for several users, and the plain programs beside it."""

    def __init__(self):
        self.feeds = [os.path.abspath(proved_program("feeds"))]
        self.plain = [plain_program("users")]
        self.session = [plain_program("session")]
        self.replica = [plain_program("replica")]

    def shared(self, lines):
        """What both write for the lines of users, each with its status."""
        text = b"\n".join(lines)
        return run_alone(self.feeds, text), run_alone(self.plain, text)

    def followed(self, name, feed):
        """What both replicas of a query write, each with its status."""
        return run_alone([*self.feeds, "replica", name], feed), run_alone([*self.replica, name], feed)

    def of_line(self, lines):
        """Each line that is told, with the number of its line of input."""
        numbered, _ = run_alone([*self.plain, "--number"], b"\n".join(lines))
        return [(int(number), told) for number, _, told in (line.partition(b" ") for line in numbered.split(b"\n")[:-1])]


def first_unlike(ours, theirs):
    """The first line that two runs don't tell alike, as texts, or nothing."""
    if ours == theirs:
        return None
    for one, other in zip(lines_of(ours), lines_of(theirs)):
        if one != other:
            return one, other
    return lines_of(ours)[-1], lines_of(theirs)[-1]


def lines_of(run):
    """The lines of a run, and how it ended."""
    written, status = run
    return written.decode(errors="replace").split("\n") + [f"status {status}"] * 2


def fail(title, lines, pair):
    """Shows lines that two programs don't answer alike, made as few and as short as they get, and ends."""
    differ = lambda some: first_unlike(*pair(some))
    if not differ(lines):
        sys.exit(f"{title}, but not each time that it is tried")
    small = smallest(lines, differ, smaller_lines)
    runs = pair(small)
    show(f"{title}; a small one:", small, [(name, lines_of(run)[:-1]) for name, run in zip(("feeds", "plain"), runs)])
    sys.exit(1)


def feed_of(user, written):
    """What one user is told, without the user."""
    front = user + b" "
    return b"".join(line[len(front):] for line in written.splitlines(keepends=True) if line.startswith(front))
