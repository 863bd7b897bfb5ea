# Makes the tables of docs/MEASURES.md of one run of bench/run.
#   report.py COUNTS PLACES SYMBOLS DISASSEMBLY
# COUNTS: what the driver and the plugin wrote; PLACES: how often each address was executed; SYMBOLS:
# nm -n --defined-only of the program; DISASSEMBLY: objdump -d of it.
import bisect
import re
import sys

TEST = {"ours": "store::wholes::well_formed", "twin": "twin::well_formed"}
LIMITS = {"4": 3500, "128": 2800}
# What a selection's walk is taken from: the same call that selects nobody.
WALKS = {"interrupt": "interrupt_0", "sfence_vma": "sfence_vma_0", "hfence_gvma": "hfence_gvma_0"}
TABLE = 128 * 12 * 8


def plain(name):
    """twin::f of Rust's _ZN4twin1f17h0123456789abcdefE, any other name as it is."""
    parts, rest = [], name[3:]
    if not name.startswith("_ZN"):
        return name
    while rest and rest[0].isdigit():
        n = re.match(r"\d+", rest).group()
        parts.append(rest[len(n) : len(n) + int(n)])
        rest = rest[len(n) + int(n) :]
    return "::".join(parts[:-1])


def symbols(path):
    found = []
    for line in open(path):
        address, kind, name = line.rstrip("\n").split(None, 2)
        if kind in "tT":
            found.append((int(address, 16), plain(name)))
    return found


def executed(path, names):
    """For each count, how many instructions of each function were executed."""
    starts, all_counts = [a for a, _ in names], {}
    for line in open(path):
        number, address, times = line.split()
        name = names[bisect.bisect_right(starts, int(address, 16)) - 1][1]
        counts = all_counts.setdefault(int(number), {})
        counts[name] = counts.get(name, 0) + int(times)
    return all_counts


class Code:
    """The functions of a disassembly: how deep each one's stack goes, and the copies it calls."""

    def __init__(self, path):
        self.bodies, self.depths = {}, {}
        body = None
        for line in open(path):
            if re.match(r"[0-9a-f]+ <.*>:$", line):
                body = self.bodies.setdefault(plain(line.split("<", 1)[1][:-3]), [])
            found = re.match(r"\s+([0-9a-f]+):\s+(\S.*)$", line)
            if found and body is not None:
                body.append((int(found.group(1), 16), found.group(2).split("#")[0].strip()))
        self.entry = {body[0][0]: name for name, body in self.bodies.items() if body}

    def depth(self, name):
        """(own frame, deepest use below the caller's frame), both with the return address."""
        if name in self.depths:
            return self.depths[name]
        body = self.bodies[name]
        places = {address: i for i, (address, _) in enumerate(body)}
        at, todo, own, deep = {}, [(0, 8)], 8, 8
        jumped = None
        while todo or jumped is not None:
            if not todo:
                # behind an indirect jump: every instruction that nothing else leads to
                rest = [i for i in range(len(body)) if i not in at and "nop" not in body[i][1]]
                if not rest:
                    break
                todo.append((rest[0], jumped))
            i, used = todo.pop()
            if i in at:
                if at[i] != used:
                    raise SystemExit(f"{name}: two depths at {body[i][0]:x}")
                continue
            at[i] = used
            text = body[i][1]
            step = re.match(r"(sub|add)\s+\$(-?0x[0-9a-f]+),%rsp", text)
            if text.startswith("push"):
                used += 8
            elif text.startswith("pop"):
                used -= 8
            elif step:
                amount = int(step.group(2), 16)
                used += amount if step.group(1) == "sub" else -amount
            elif re.search(r",%rsp$", text) and not text.startswith(("cmp", "test")):
                raise SystemExit(f"{name}: rsp is put by {text}")
            # a function that calls nothing may write below the stack pointer
            below = max([int(n, 16) for n in re.findall(r"-(0x[0-9a-f]+)\(%rsp", text)], default=0)
            own = max(own, used + below)
            deep = max(deep, used + below)
            target = re.match(r"(call|j[a-z]+)\s+([0-9a-f]+) <", text)
            if target:
                to = int(target.group(2), 16)
                if target.group(1) == "call":
                    deep = max(deep, used + self.depth(self.entry[to])[1])
                elif to in places:
                    todo.append((places[to], used))
                else:
                    deep = max(deep, used - 8 + self.depth(self.entry[to])[1])
            elif text.startswith("call"):
                raise SystemExit(f"{name}: a call of what is not known: {text}")
            if text.startswith("jmp") and "*" in text:
                jumped = used
            if not text.startswith(("ret", "jmp", "ud2")) and i + 1 < len(body):
                todo.append((i + 1, used))
        self.depths[name] = own, deep
        return self.depths[name]

    def size(self, name):
        body = [a for a, text in self.bodies[name] if "nop" not in text]
        return body[-1] - body[0] + 1

    def copies(self, name):
        """The lengths of the copies that a function calls, where they are constant."""
        lengths = []
        for i, (_, text) in enumerate(self.bodies[name]):
            if re.match(r"(call|jmp)\s.*<mem(cpy|move)>", text):
                before = [t for _, t in self.bodies[name][max(0, i - 12) : i]]
                found = [re.match(r"mov\s+\$(0x[0-9a-f]+),%[er]dx", t) for t in before]
                known = [int(f.group(1), 16) for f in found if f]
                lengths.append(known[-1] if known else None)
        return lengths


def ratio(a, b):
    return f"{a / b:.2f}"


def main(counts, places, names, disassembly):
    names = symbols(names)
    parts = executed(places, names)
    rows, order = {}, []
    for number, line in enumerate(open(counts)):
        kind, harts, side, count = line.split()
        part = parts[number]
        if sum(part.values()) != int(count):
            raise SystemExit(f"{kind}: {count} counted, {sum(part.values())} by place")
        test = part.get(TEST[side], 0)
        if kind != "fresh" and not test:
            raise SystemExit(f"{kind}: {TEST[side]} was not executed, or stands within another function")
        copied = part.get("memcpy", 0) + part.get("memmove", 0)
        rows[kind, harts, side] = int(count), test, copied
        if (kind, harts) not in order:
            order.append((kind, harts))

    print("### The table test\n")
    print("| Harts enabled | ours | limit | twin | ratio |\n|---|---|---|---|---|")
    for harts in ("4", "128"):
        ours, twin = rows["test", harts, "ours"][1], rows["test", harts, "twin"][1]
        print(f"| {harts} | {ours:,} | {LIMITS[harts]:,} | {twin:,} | {ratio(ours, twin)} |")

    for harts in ("4", "128"):
        print(f"\n### {harts} harts enabled\n")
        print("| Operation | ours, with the test | twin | ratio | ours, beyond it | of it in memcpy | twin | ratio |")
        print("|---|---|---|---|---|---|---|---|")
        for kind, n in order:
            if n != harts or kind == "test":
                continue
            ours, test, copied = rows[kind, n, "ours"]
            twin, twin_test, _ = rows[kind, n, "twin"]
            beyond, twin_beyond = ours - test, twin - twin_test
            print(
                f"| {kind} | {ours:,} | {twin:,} | {ratio(ours, twin)} "
                f"| {beyond:,} | {copied:,} | {twin_beyond:,} | {ratio(beyond, twin_beyond)} |"
            )

    print("\n### Selections, the walk apart\n")
    print("| Operation | ours, beyond an empty selection | twin | ratio |\n|---|---|---|---|")
    for kind, n in order:
        name, _, told = kind.rpartition("_")
        if n == "128" and name in WALKS and told != "0":
            o, t = ([rows[k, n, s][0] for k in (kind, WALKS[name])] for s in ("ours", "twin"))
            ours, twin = o[0] - o[1], t[0] - t[1]
            print(f"| {kind} | {ours:,} | {twin:,} | {ratio(ours, twin)} |")

    code = Code(disassembly)
    starts = dict((b, a) for a, b in names)
    counted = [n for a, n in names if starts["counted_from"] <= a < starts["counted_to"]]
    counted = [n for n in counted if n in code.bodies and n != "memcpy"]
    for side in ("ours", "twin"):
        print(f"\n### Stack and code, {side}\n")
        print("| Function | code | own frame | deepest below the caller | copies called |")
        print("|---|---|---|---|---|")
        total = 0
        for name in counted:
            mine = not name.startswith("twin") if side == "ours" else name.startswith("twin")
            if not mine or name in ("memset", "memcmp", "bcmp"):
                continue
            own, deep = code.depth(name)
            copies = ", ".join("?" if n is None else str(n) for n in code.copies(name)) or "none"
            total += code.size(name)
            print(f"| `{name}` | {code.size(name):,} | {own} | {deep} | {copies} |")
            if None in code.copies(name) or any(n >= TABLE for n in code.copies(name) if n):
                raise SystemExit(f"{name}: a copy that may be a table's")
        print(f"\nCode in all: {total:,} bytes.")


main(*sys.argv[1:])
