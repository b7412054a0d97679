"""The program's module for WebAssembly: an LLVM module for x86-64, as text, becomes one for wasm64.

The two have one layout of numbers, pointers and structs, so only the head of the module and what its functions ask of the
processor change. Whatever isn't known here ends with an error: a kit that lays out or calls something in another way must
be looked at by a person.
"""

import re

TRIPLE = "x86_64-unknown-linux-gnu"

# what the C files beside this one define, as the module declares it
CALLS = {
    "rattle_alloc": "{ i64, i64 } (i64 noundef, i64 noundef)",
    "rattle_realloc": "{ i64, i64 } (ptr noundef, i64 noundef, i64 noundef, i64 noundef)",
    "rattle_dealloc": "void (ptr noundef)",
    "rattle_arg": "noundef i64 (i64 noundef, ptr noundef, i64 noundef)",
    "rattle_env": "noundef i64 (ptr noundef, ptr noundef, i64 noundef)",
    "rattle_env_at": "noundef i64 (i64 noundef, ptr noundef, i64 noundef)",
    "rattle_errno": "noundef i32 ()",
    "rattle_set_errno": "void (i32 noundef)",
    "read": "noundef i64 (i32 noundef, ptr noundef, i64 noundef)",
    "write": "noundef i64 (i32 noundef, ptr noundef, i64 noundef)",
    "open": "noundef i32 (ptr noundef, i32 noundef, ...)",
    "close": "noundef i32 (i32 noundef)",
    "rename": "noundef i32 (ptr noundef, ptr noundef)",
    "unlink": "noundef i32 (ptr noundef)",
    "fsync": "noundef i32 (i32 noundef)",
    "fchmod": "noundef i32 (i32 noundef, i32 noundef)",
    "fdatasync": "noundef i32 (i32 noundef)",
    "flock": "noundef i32 (i32 noundef, i32 noundef)",
    "ftruncate": "noundef i32 (i32 noundef, i64 noundef)",
    "lseek": "noundef i64 (i32 noundef, i64 noundef, i32 noundef)",
    "statx": "noundef i32 (i32 noundef, ptr noundef, i32 noundef, i32 noundef, ptr noundef)",
    "__xpg_strerror_r": "noundef i32 (i32 noundef, ptr noundef, i64 noundef)",
    "__sysv_signal": "i64 (i32, i64)",
}
# what LLVM does on every processor
INTRINSICS = re.compile(
    r"llvm\.(memset|memmove|memcpy|trap|cttz|ctlz|ctpop|bswap|fshl|fshr|abs|smax|smin|umax|umin|sqrt|arithmetic\.fence"
    r"|[su](add|sub|mul)\.with\.overflow|lifetime\.(start|end)|assume|expect)(\.\w+)*"
)
# what may be said of a function on every processor, and what is of x86, or of checks that clang adds, and is left out
KEPT = {
    "nounwind", "nobuiltin", "nocallback", "nofree", "nosync", "norecurse", "noreturn", "willreturn", "mustprogress", "cold",
    "speculatable", "nocreateundeforpoison", "inlinehint", "noinline", "alwaysinline", '"frame-pointer"="all"',
}
LEFT_OUT = {"sanitize_address", '"probe-stack"="inline-asm"', '"stack-probe-size"="3072"', '"target-cpu"="x86-64"'}
MEMORY = re.compile(r"memory\([a-z:, ]+\)")
# in a line of code
OF_X86 = re.compile(
    r'\basm (?:\w+ )*"|\bx86_|\bllvm\.x86\.|\baddrspace\(|\bthread_local\b|\bcc ?\d|\bwin64cc\b|\b(?:byval|inalloca|preallocated)\('
)
QUOTED_NAME = re.compile(r'[@%]"[^"]*"')
HEAD = re.compile(r'(target (?:datalayout|triple)|source_filename|module asm) ?=? ?"(.*)"')
DECLARED = re.compile(r'declare (.*)@"?([\w.$]+)"?(\(.*\))((?: #\d+)?)$')
ATTRIBUTES = re.compile(r"attributes (#\d+) = \{ (.*) \}$")
ATTRIBUTE = re.compile(r'"[^"]*"="[^"]*"|memory\([^)]*\)|[^" ]+')
# the entry of the program: it isn't called main, of which clang makes a function with words
ENTRY, NEW_ENTRY = "define i32 @main()", "define i32 @run()"


class NotKnown(Exception):
    """Something of the module that is not known to be the same on both processors."""


def same_layout(layout):
    """What a data layout says of the sizes and places of the numbers, pointers and structs that a module of Rattle has: not
    of pointers to other memories, of x86's numbers of 80 bits, and of which numbers are quick."""
    parts = [part for part in layout.split("-") if not re.match(r"p\d|f80:|n\d|ni:", part)]
    return sorted(part for part in parts if part != "p:64:64")


def kept_attributes(text):
    """The attributes of a group that are left for any processor."""
    kept = []
    for word in ATTRIBUTE.findall(text):
        if word in KEPT or MEMORY.fullmatch(word):
            kept.append(word)
        elif word not in LEFT_OUT:
            raise NotKnown(f"the attribute {word}")
    return " ".join(kept or ["nounwind"])


def check_declared(answer, name, parameters):
    """Fails where a function from outside is not one that is known, with the parameters that are known."""
    if INTRINSICS.fullmatch(name):
        return
    if name not in CALLS:
        raise NotKnown(f"a call of {name}, which wasm/ doesn't define")
    if CALLS[name] != f"{answer}{parameters}":
        raise NotKnown(f"the call {answer}{name}{parameters}")


def new_line(line, layout, triple):
    """A line of the module for the other processor."""
    head = HEAD.match(line)
    if head:
        what, said = head.groups()
        if what == "target datalayout":
            if same_layout(said) != same_layout(layout):
                raise NotKnown(f"a layout that differs: {said} and {layout}")
            return f'target datalayout = "{layout}"\n'
        if what == "target triple":
            if said != TRIPLE:
                raise NotKnown(f"the target {said}")
            return f'target triple = "{triple}"\n'
        if what == "module asm":
            raise NotKnown("assembly of the module")
        return line
    if line.startswith("declare "):
        found = DECLARED.match(line)
        if not found:
            raise NotKnown(line)
        check_declared(*found.groups()[:3])
        return line
    found = ATTRIBUTES.match(line)
    if found:
        return f"attributes {found[1]} = {{ {kept_attributes(found[2])} }}\n"
    # (names may have any words in them)
    if not line.startswith(("@", ";", "!")) and OF_X86.search(line) and OF_X86.search(QUOTED_NAME.sub("@", line)):
        raise NotKnown(line.strip())
    return line


def retarget(lines, layout, triple):
    """The lines of the module for this layout and triple."""
    entries, heads = 0, 0
    for number, line in enumerate(lines, 1):
        try:
            line = new_line(line, layout, triple)
        except NotKnown as error:
            raise NotKnown(f"line {number} of the module has {error}") from None
        if line.startswith(ENTRY):
            entries += 1
            line = NEW_ENTRY + line[len(ENTRY):]
        heads += line.startswith("target ")
        yield line
    if entries != 1 or heads != 2:
        raise NotKnown("no entry `i32 main()`, or no layout and triple")
