"""The rings of `coord drill N` as a network file and a currents table, written from their description."""


def network(n):
    lines = ["format = 1", "[study]", "cti_ms = 300"]
    for k in range(1, n + 1):
        lines += ["[[line]]", f'name = "L{k}"', f'from = "B{k}"', f'to = "B{k % n + 1}"']
    for k in range(1, n + 1):
        for letter, bus in (("F", k), ("G", k % n + 1)):
            lines += ["[[relay]]", f'name = "{letter}{k}"', f'line = "L{k}"', f'bus = "B{bus}"', 'curve = "iec-a"']
            lines += ["ct_primary = 400", "ct_secondary = 1", "plug_first = 60", "plug_step = 20", "plug_count = 3"]
            lines += ["dial_first = 50", "dial_step = 10", "dial_count = 96", "load_amps = 180"]
    for k in range(1, n + 1):
        for letter in "XY":
            lines += ["[[fault]]", f'name = "{letter}{k}"', f'line = "L{k}"', f"weight = {1 + k % 3}"]
    return "\n".join(lines) + "\n"


def currents(n):
    lines = ["fault,relay,amps"]
    for k in range(1, n + 1):
        v = 7 * k % 11
        before, after = f"F{(k - 2) % n + 1}", f"G{k % n + 1}"
        for fault, near, behind, far, beyond in (("X", f"F{k}", before, f"G{k}", after), ("Y", f"G{k}", after, f"F{k}", before)):
            lines += [f"{fault}{k},{near},{4000 + 50 * v}", f"{fault}{k},{behind},{1600 + 25 * v}"]
            lines += [f"{fault}{k},{far},{2200 + 50 * v}", f"{fault}{k},{beyond},{1200 + 25 * v}"]
    return "\n".join(lines) + "\n"
