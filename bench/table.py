"""The benchmark's tables, from the figures on standard input: python3 bench/table.py MACHINE"""

import sys

NAMES = {"genes": "real genes", "limits": "at the limits", "genes_small": "genes, demands at most 10", "genes_large": "the same, demands times 100,000",
         "limits_small": "limits, demands 0 to 10", "limits_large": "the same, demands times 100,000"}
sets, users, stacks = {}, {}, []
for line in sys.stdin:
    kind, name, *rest = line.split()
    name = name.removesuffix(".forms")
    if kind == "set":
        sets[name] = (int(rest[0]), [float(x) / 1000 for x in rest[1:]])
    elif kind == "user":
        users[name] = float(rest[1]) / 1000
    else:
        stacks.append((name, int(rest[0])))


def micro(x):
    return f"{x:,.1f}" if x < 100 else f"{x:,.0f}"


print(f"Machine: {sys.argv[1]}. Microseconds a form: the mean, over a set, of each form's least of 50 times or more.\n")
print("| Builder | Forms | Library | LEMON | Library / LEMON | networkx | networkx / library |")
print("|---|---|---|---|---|---|---|")
for name, (count, (build, lemon, _, _, _)) in sets.items():
    print(f"| {NAMES[name]} | {count} | {micro(build)} | {micro(lemon)} | {build / lemon:.2f} | {micro(users[name])} | {users[name] / build:.0f} |")
print("\n| Checker | Forms | Library | C | Library / C | Reading the graph alone |")
print("|---|---|---|---|---|---|")
for name, (count, (_, _, check, plain, read)) in sets.items():
    print(f"| {NAMES[name]} | {count} | {micro(check)} | {micro(plain)} | {check / plain:.2f} | {micro(read)} |")
print("\n| Demands times 100,000 | Library | LEMON | networkx |")
print("|---|---|---|---|")
for name in ("genes", "limits"):
    small, large = name + "_small", name + "_large"
    ratios = [sets[large][1][k] / sets[small][1][k] for k in (0, 1)]
    print(f"| {NAMES[name]} | {ratios[0]:.2f} | {ratios[1]:.2f} | {users[large] / users[small]:.2f} |")
print("\n| Call | Stack, bytes |")
print("|---|---|")
for name, need in stacks:
    print(f"| `{name}` | {need:,} |")
