"""Made listings for the benchmark: each family is a way to go on, line after line, up to a size."""
import re


def function(name, body):
    """A function with its declarations, as the decompiler prints one."""
    return ["function %s(a, b) {" % name] + ["  " + line for line in body] + ["}"]


def small_functions():
    """Many small functions, each with a few registers, a call and a return."""
    n = 0
    while True:
        yield from function("f%d" % n, [
            "let r0, r1, r2, r3;",
            "r0 = a;",
            "r1 = \"sep%d\";" % (n % 7),
            "r2 = g(r0, r1);",
            "r3 = r2.length;",
            "return r3;",
        ])
        n += 1


def large_function():
    """One function that goes on and on over 40 registers."""
    yield "function main(a) {"
    yield "  let " + ", ".join("r%d" % n for n in range(40)) + ";"
    n = 0
    while True:
        k = n % 38
        yield "  r%d = a.p%d;" % (k, n % 5)
        yield "  r%d = r%d + %d;" % (k + 1, k, n)
        yield "  out.put(r%d, r%d);" % (k + 1, k)
        n += 1


def long_declarations():
    """Declarations of many registers, of which few are used."""
    n = 0
    while True:
        yield "function d%d() {" % n
        yield "  let " + ",".join("r%d" % (k + 100) for k in range(60)) + ";"
        yield "  r%d = 1;" % (100 + n % 60)
        yield "  use(r%d);" % (100 + n % 60)
        yield "}"
        n += 1


def dead_stores(first=0):
    """Stores that nothing reads."""
    yield "function main() {"
    n = first
    while True:
        yield "  let r%d;" % n
        yield "  r%d = %d;" % (n, n)
        n += 1


def call_chains():
    """Values that all go into one call."""
    n = 0
    while True:
        yield "function c%d(o) {" % n
        yield "  let " + ", ".join("r%d" % k for k in range(12)) + ";"
        for k in range(10):
            yield "  r%d = o.item(%d);" % (k, k)
        yield "  r10 = join(" + ", ".join("r%d" % k for k in range(10)) + ");"
        yield "  r11 = new Map(r10);"
        yield "  return r11.size();"
        yield "}"
        n += 1


def deep_brackets():
    """Arrays in arrays, and blocks in blocks."""
    n = 0
    while True:
        yield "function b%d(a) {" % n
        yield "  let r0, r1;"
        yield "  r0 = " + "[" * 30 + "1" + "]" * 30 + ";"
        for k in range(6):
            yield "  " * (k + 1) + "if (a.k%d) {" % k
        yield "  r1 = f(r0);"
        for k in range(6):
            yield "  " * (6 - k) + "}"
        yield "  return r1;"
        yield "}"
        n += 1


def phis(first=0):
    """Declared phis, stored on two branches, half of them read."""
    n = first
    while True:
        yield "function p%d(a) {" % n
        yield "  let phi%d, phi%d;" % (2 * n, 2 * n + 1)
        yield "  if (a) {"
        yield "    phi%d = 1;" % (2 * n)
        yield "    phi%d = a.x;" % (2 * n + 1)
        yield "  } else {"
        yield "    phi%d = 2;" % (2 * n)
        yield "  }"
        yield "  return phi%d;" % (2 * n + 1)
        yield "}"
        n += 1


def member_loads():
    """Loads of members, and no call of them."""
    yield "function main(a) {"
    n = 0
    while True:
        yield "  r%d = obj%d.member%d;" % (n % 50, n % 9, n)
        n += 1


def comments_and_strings():
    """Mostly comments and strings."""
    n = 0
    while True:
        yield "// part %d: the columns are x; y; z { not a block } r%d = r1;" % (n, n)
        yield "function s%d() {" % n
        yield "  let r0; /* one string */"
        yield "  r0 = \"a; b } c { r0 = r1; // no comment\" + 'd \\' e';"
        yield "  /* r0 = 1; */ write(r0); // done"
        yield "}"
        n += 1


def long_lines():
    """Long lines of code, comments and strings: to tell where a statement starts, each is cleaned to its end."""
    n = 0
    while True:
        yield "function l%d(a) {" % n
        yield "  let r0, r1, r2;"
        yield "  r0 = a.join(" + ", ".join("\"part %d; of { many\" + a.p%d" % (k, k) for k in range(14)) + ");"
        yield "  // " + "r0 = 1; { and so on } " * 20
        yield "  r1 = " + " + ".join("/* %d; { */ b%d * %d" % (k, k, n) for k in range(18)) + ";"
        yield "  r2 = f(r0, r1, " + ", ".join("'it\\'s %d' + c%d / 2" % (k, k) for k in range(16)) + ");"
        yield "  use(r2);"
        yield "}"
        n += 1


def spread(n):
    """A number below 2 to the 63, another for each n."""
    return n * 0x9E3779B97F4A7C15 % 2**64 >> 1


def one_function(number):
    """One function: registers with such numbers, each declared and stored once, half of them read on the next line."""
    yield "function main(a) {"
    n = 0
    while True:
        names = ["r%d" % number(n + k) for k in range(8)]
        yield "  let " + ", ".join(names) + ";"
        for k, name in enumerate(names):
            yield "  %s = a.p%d(%d);" % (name, k, n)
            if k % 2:
                yield "  use(%s);" % name
        n += 8


def low_registers():
    """One function over registers from 0 on, declared and stored once."""
    return one_function(lambda n: n)


def taken_twice(second):
    """One function: each register is stored and taken by the next line, and again by other lines, ever further below."""
    yield "function main(a) {"
    n = 0
    while True:
        yield "  r%d = a.p%d;" % (n, n % 5)
        yield "  use(r%d);" % n
        if n % 2:
            yield from second("r%d" % (n // 2))
        n += 1


def read_again():
    """One function: each register is read by the next line, and read again far below."""
    return taken_twice(lambda name: ["  keep(%s);" % name])


def stored_again():
    """One function: each register is stored and read by the next line, twice, far apart."""
    return taken_twice(lambda name: ["  %s = a.q;" % name, "  use(%s);" % name])


def high_registers():
    """One function over registers from 2000 on, declared and stored once."""
    return one_function(lambda n: 2000 + n)


def random_registers():
    """One function over registers with random numbers up to 2 to the 63."""
    return one_function(spread)


def high_dead_stores():
    """Stores that nothing reads, of registers from 2000 on."""
    return dead_stores(2000)


def high_read_below():
    """One function over registers from 2000 on: blocks of stores, and each is read far below."""
    yield "function main(a) {"
    n = 2000
    while True:
        names = ["r%d" % k for k in range(n, n + 40)]
        yield "  let " + ", ".join(names) + ";"
        for k, name in enumerate(names):
            yield "  %s = a.p%d;" % (name, k % 5)
        for name in names:
            yield "  use(%s, %s);" % (name, name)
        n += 40


def numbered_through():
    """Small functions whose registers are numbered through from 2000 on."""
    n = 0
    while True:
        r = ["r%d" % (2000 + 4 * n + k) for k in range(4)]
        yield from function("f%d" % n, [
            "let %s;" % ", ".join(r),
            "%s = a;" % r[0],
            "%s = \"sep%d\";" % (r[1], n % 7),
            "%s = g(%s, %s);" % (r[2], r[0], r[1]),
            "%s = %s.length;" % (r[3], r[2]),
            "return %s;" % r[3],
        ])
        n += 1


def high_phis():
    """The same from 2000 on."""
    return phis(1000)


def some_temps(name):
    """Declared temps with such names, half of them read."""
    n = 0
    while True:
        names = [name(n * 8 + k) for k in range(8)]
        yield "function t%d(a) {" % n
        yield "  let " + ", ".join(names) + ";"
        for k, temp in enumerate(names):
            yield "  %s = %d;" % (temp, k)
        for temp in names[::2]:
            yield "  use(%s);" % temp
        yield "}"
        n += 1


def temps():
    """Declared temps, half of them read."""
    return some_temps(lambda n: "t%d" % n)


def high_temps():
    """Declared temps from 2000 on, half of them read."""
    return some_temps(lambda n: "t%d" % (2000 + n))


def zero_temps():
    """Declared temps with leading zeros, half of them read."""
    return some_temps(lambda n: "t0%d" % n)


def undeclared_temps():
    """Stores of temps that no line declares, with high numbers or a zero in front, beside a temp that is declared and read."""
    yield "function main(a) {"
    n = 0
    while True:
        yield "  let t7;"
        yield "  t%d = %d;" % (2000 + n % 5, n)
        yield "  t0%d = a;" % (n % 7)
        yield "  use(t7);"
        n += 1


def many_registers():
    """One function that goes on and on over 200 registers, each of them stored again and again."""
    yield "function main(a) {"
    yield "  let " + ", ".join("r%d" % n for n in range(200)) + ";"
    n = 0
    while True:
        k = n * 7 % 199
        yield "  r%d = a.p%d;" % (k, n % 5)
        yield "  r%d = f(r%d, %d);" % (k + 1, k, n)
        yield "  out.put(r%d, r%d);" % (k + 1, n * 3 % 200)
        n += 1


def each_once():
    """One function in which each register is stored once, from those before it, and declared where it is stored."""
    yield "function main(a) {"
    yield "  let r0 = a;"
    n = 1
    while True:
        yield "  let r%d;" % n
        yield "  r%d = f(r%d, r%d);" % (n, n - 1, n // 2)
        n += 1


def read_late(size):
    """One function of some size: each register is read by the next line, and all of them are read again at its end."""
    yield "function main(a) {"
    many = max(1, size // 44)
    for n in range(many):
        yield "  r%d = a.p%d;" % (n, n % 5)
        yield "  use(r%d);" % n
    for n in range(many):
        yield "  keep(r%d);" % n
    yield "}"


def pairs():
    """One function: each register is stored and sent on, twice."""
    yield "function main(a) {"
    n = 0
    while True:
        for call in ("use", "keep"):
            yield "  r%d = a.p%d;" % (n, n % 5)
            yield "  %s(r%d, a);" % (call, n)
        n += 1


def one_declaration(size):
    """One declaration of many registers, some 20,000 in a listing of 900,000 bytes, and their uses."""
    many = max(1, size // 44)
    yield "function main(a) {"
    yield "  let " + ", ".join("r%d" % n for n in range(many)) + ";"
    for n in range(many):
        yield "  r%d = a.p%d;" % (n, n % 5)
        yield "  use(r%d);" % n
    yield "}"


def long_calls():
    """Calls with 60 values each, which are stored on the lines above."""
    n = 0
    while True:
        yield "function l%d(o) {" % n
        yield "  let " + ", ".join("r%d" % k for k in range(60)) + ";"
        for k in range(60):
            yield "  r%d = o.part%d(%d);" % (k, k, n)
        yield "  return join(" + ", ".join("r%d" % k for k in range(60)) + ");"
        yield "}"
        n += 1


def deep_blocks():
    """Functions with blocks in blocks, 200 deep, closed one by one."""
    n = 0
    while True:
        yield "function k%d(a) {" % n
        for k in range(200):
            yield "%sif (a.k%d) {" % ("  " * (k % 20), k)
            yield "%s  r%d = f(a, %d);" % ("  " * (k % 20), k % 30, k)
        for k in range(200):
            yield "%suse(r%d); }" % ("  " * (k % 20), k % 30)
        yield "}"
        n += 1


def comments():
    """Comments with code in them, and little else."""
    n = 0
    while True:
        yield "/* r%d = 1; use(r%d); { not a block } */" % (n % 60, n % 60)
        yield "// let r%d = f(\"x\"); /* and so on" % (n % 60)
        yield "  /* a */ r%d = g(%d); // r%d" % (n % 60, n, n % 60)
        n += 1


def far_registers():
    """The family `each_once` with numbers from a million on."""
    return (re.sub(r"\br(\d+)", lambda m: "r%d" % (1000000 + int(m.group(1))), line) for line in each_once())


def data_table():
    """Functions with tables of numbers in them, and registers with high numbers."""
    n = 0
    while True:
        yield "function d%d(a) {" % n
        yield "  let r%d, r%d;" % (200000 + 2 * n, 200001 + 2 * n)
        yield "  r%d = [%s];" % (200000 + 2 * n, ", ".join(str(spread(20 * n + k) % 10**6) for k in range(20)))
        yield "  r%d = f(r%d);" % (200001 + 2 * n, 200000 + 2 * n)
        yield "  return r%d;" % (200001 + 2 * n)
        yield "}"
        n += 1


def no_header():
    """Lines with no function around them."""
    n = 0
    while True:
        yield "r%d = a.p%d;" % (n % 90, n % 7)
        yield "use(r%d, r%d);" % (n % 90, n % 50)
        n += 1


FAMILIES = {
    "small functions": small_functions,
    "large function": large_function,
    "long declarations": long_declarations,
    "dead stores": dead_stores,
    "call chains": call_chains,
    "deep brackets": deep_brackets,
    "temps": temps,
    "phis": phis,
    "member loads": member_loads,
    "comments and strings": comments_and_strings,
    "long lines": long_lines,
    "low registers": low_registers,
    "read again": read_again,
    "stored again": stored_again,
    "high registers": high_registers,
    "random registers": random_registers,
    "high dead stores": high_dead_stores,
    "high, read below": high_read_below,
    "numbered through": numbered_through,
    "high phis": high_phis,
    "high temps": high_temps,
    "temps with zeros": zero_temps,
    "undeclared temps": undeclared_temps,
}

# Those of long listings that are not among the first.
LONG = {
    "many registers": many_registers,
    "each once": each_once,
    "read late": read_late,
    "pairs": pairs,
    "one declaration": one_declaration,
    "long calls": long_calls,
    "deep blocks": deep_blocks,
    "comments": comments,
    "far registers": far_registers,
    "data table": data_table,
    "no header": no_header,
}
SIZED = (read_late, one_declaration)  # that are told the size


def listing(name, size, most_lines=1024):
    """The listing of a family, of at most so many bytes and lines."""
    lines, length = [], 0
    family = FAMILIES.get(name) or LONG[name]
    for line in family(size) if family in SIZED else family():
        length += len(line) + 1
        if length > size or len(lines) == most_lines:
            break
        lines.append(line)
    return "".join(line + "\n" for line in lines).encode()
