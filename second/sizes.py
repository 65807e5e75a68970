"""What measure says of machine code: bytes by section and by function, stack frames, the deepest stack of a call, and products by their width. For x86-64, read from ELF files."""
import re
import shutil
import struct
import subprocess

BY_ADDRESS = "a call by address"


def tool(name):
    names = [f"x86_64-linux-gnu-{name}", f"llvm-{name}", name]
    return next((each for each in names if shutil.which(each)), name)


def sections(path):
    """The sections of an ELF file that are in memory: name, size, writable, executable."""
    with open(path, "rb") as file:
        data = file.read()
    start, = struct.unpack_from("<Q", data, 0x28)
    size, count, names = struct.unpack_from("<HHH", data, 0x3A)
    heads = [struct.unpack_from("<IIQQQQ", data, start + size * at) for at in range(count)]
    for name, _, flags, _, _, length in heads:
        at = heads[names][4] + name
        if flags & 2:
            yield data[at:data.index(b"\0", at)].decode(), length, bool(flags & 1), bool(flags & 4)


def size_of(path):
    """Bytes of code, of constants and of data."""
    found = list(sections(path))
    code = sum(size for _, size, _, executable in found if executable)
    constants = sum(size for name, size, _, _ in found if name.startswith(".rodata"))
    data = sum(size for name, size, _, _ in found if name.startswith((".data", ".bss")))
    return code, constants, data


def functions(path):
    """Bytes of code by function; what the compiler put inside another function counts there."""
    symbols = subprocess.run([tool("nm"), "-S", "-C", path], stdout=subprocess.PIPE, check=True, text=True).stdout
    found = [re.match(r"[0-9a-f]+ ([0-9a-f]+) [tT] (.*)", line) for line in symbols.splitlines()]
    return {each.group(2): int(each.group(1), 16) for each in found if each}


def by_crate(path):
    sizes = {}
    for function, size in functions(path).items():
        crate = function.split("::")[0] if "::" in function else "main and start"
        sizes[crate] = sizes.get(crate, 0) + size
    return ", ".join(f"{crate} {size:,}" for crate, size in sorted(sizes.items(), key=lambda each: -each[1]))


def product_bits(operands):
    """How wide a product is: with one operand it has twice the bits of a factor, with more as many. In memory a factor has 64: no program of ours has another there."""
    registers = re.sub(r"\([^)]*\)", "", operands).split(",")
    bits = 32 if re.fullmatch(r"\s*(%e\w\w|%r\d+d)\s*", registers[-1]) else 64
    return bits if len(registers) > 1 else 2 * bits


class Code:
    """The functions of a program: what each takes of the stack, what it calls, and how wide its products are."""

    def __init__(self, path):
        listing = subprocess.run([tool("objdump"), "-d", "--no-show-raw-insn", path], stdout=subprocess.PIPE, check=True, text=True).stdout
        self.frames, self.stacks, self.calls, self.products = {}, {}, {}, {}
        for head, body in re.findall(r"^[0-9a-f]+ <(.*)>:\n((?:.+\n)*)", listing, re.M):
            self.read(head, body)

    def read(self, function, body):
        """A frame over a page is taken page by page, and given back by one `add`. Arguments of a call are pushed, or room is made for them: all such steps of a
        function are summed, so that its part of the stack is at most what is said. A function that calls none may use bytes under its frame, too. Its return
        address is its caller's."""
        moved = [(kind, int(size, 0)) for kind, size in re.findall(r"\b(sub|add)q?\s+\$(0x[0-9a-f]+|\d+),\s*%rsp", body)]
        frame = max((size for _, size in moved), default=0)
        smaller = sum(size for kind, size in moved if kind == "sub" and size < min(frame, 64))
        pushed = 8 * len(re.findall(r"\bpushq?\s", body))
        under = max((int(size, 0) for size in re.findall(r"-(0x[0-9a-f]+)\(%rsp", body)), default=0)
        called = set(re.findall(r"\bcallq?\s+[0-9a-f]+ <([^>+]*)>", body))
        called |= set(re.findall(r"\bj\w+\s+[0-9a-f]+ <([^>+]*)>", body)) - {function}  # a jump to its own start is a loop
        if re.search(r"\bcallq?\s+\*", body):
            called.add(BY_ADDRESS)
        self.frames[function], self.stacks[function] = frame, frame + smaller + pushed + under
        self.calls[function] = {each.split("@")[0] for each in called}
        self.products[function] = [product_bits(each) for each in re.findall(r"\bi?mul[lq]?\s+(\S.*)$", body, re.M)]

    def largest(self, count):
        return sorted(self.frames.items(), key=lambda each: -each[1])[:count]

    def reached(self, roots):
        found, todo = set(), list(roots)
        while todo:
            function = todo.pop()
            if function in self.stacks and function not in found:
                found.add(function)
                todo += self.calls[function]
        return found

    def deepest(self, function, turns):
        """The most bytes of stack that a call of the function takes, with its return address, and the path that takes them. `turns` says of a function that calls
        itself how often it stands on the stack at most. The C library's part is not in it."""
        return self.below(function, turns, ())

    def below(self, function, turns, above):
        if function in above or (function in self.calls[function] and function not in turns):
            raise ValueError(f"{function} calls itself, and nothing says how often")
        if BY_ADDRESS in self.calls[function]:
            raise ValueError(f"{function} calls by address, and nothing says what")
        others = [self.below(each, turns, (*above, function)) for each in self.calls[function] if each in self.stacks and each != function]
        size, path = max(others, default=(0, ()), key=lambda each: each[0])
        times = turns[function] if function in self.calls[function] else 1
        name = function if times == 1 else f"{times} times {function}"
        return times * (8 + self.stacks[function]) + size, (name, *path)
