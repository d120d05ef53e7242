"""Writes sets of clauses in the DIMACS form, one file a formula, into the folder that is named."""
import os
import random
import sys

FOLDER = sys.argv[1]


def write(name, count, clauses):
    with open(os.path.join(FOLDER, name + ".cnf"), "w") as file:
        file.write(f"p cnf {count} {len(clauses)}\n")
        for clause in clauses:
            file.write(" ".join(map(str, clause)) + " 0\n")


def random_clauses(count, ratio, seed):
    """Clauses of three different variables with random signs."""
    numbers = random.Random(seed * 1_000_003 + count)
    return [[var if numbers.random() < 0.5 else -var for var in numbers.sample(range(1, count + 1), 3)]
            for _ in range(int(count * ratio))]


def pigeons(count):
    """So many pigeons, each alone in one of so many holes less one."""
    holes = count - 1
    at = lambda pigeon, hole: pigeon * holes + hole + 1
    clauses = [[at(pigeon, hole) for hole in range(holes)] for pigeon in range(count)]
    clauses += [[-at(one, hole), -at(other, hole)]
                for hole in range(holes) for one in range(count) for other in range(one + 1, count)]
    return count * holes, clauses


class Gates:
    """Clauses of gates over variables."""

    def __init__(self):
        self.count = 0
        self.clauses = []

    def var(self):
        self.count += 1
        return self.count

    def both(self, a, b):
        out = self.var()
        self.clauses += [[-out, a], [-out, b], [out, -a, -b]]
        return out

    def differ(self, a, b):
        out = self.var()
        self.clauses += [[-out, a, b], [-out, -a, -b], [out, -a, b], [out, a, -b]]
        return out

    def sum_of(self, column):
        """The sum and the carry of the first two or three bits of a column, which are taken out."""
        a, b = column.pop(0), column.pop(0)
        half, carry = self.differ(a, b), self.both(a, b)
        if not column:
            return half, carry
        c = column.pop(0)
        return self.differ(half, c), -self.both(-carry, -self.both(half, c))

    def product(self, a, b):
        """The bits of a product, the lowest first."""
        columns = [[] for _ in range(len(a) + len(b))]
        for i, x in enumerate(a):
            for j, y in enumerate(b):
                columns[i + j].append(self.both(x, y))
        bits = []
        for at, column in enumerate(columns):
            while len(column) > 1:
                bit, carry = self.sum_of(column)
                column.append(bit)
                columns[at + 1].append(carry)
            bits += column
        return bits


def factors(width, number):
    """Two numbers above 1 whose product is this one."""
    gates = Gates()
    a, b = [[gates.var() for _ in range(width)] for _ in range(2)]
    bits = gates.product(a, b)
    gates.clauses += [[bit if number >> at & 1 else -bit] for at, bit in enumerate(bits)] + [a[1:], b[1:]]
    return gates.count, gates.clauses


def commutes(width):
    """Two numbers whose product is another one when they are exchanged."""
    gates = Gates()
    a, b = [[gates.var() for _ in range(width)] for _ in range(2)]
    pairs = zip(gates.product(a, b), gates.product(b, a))
    gates.clauses.append([gates.differ(x, y) for x, y in pairs])
    return gates.count, gates.clauses


def wide(width):
    """One clause of so many literals, and pairs of negated ones."""
    return width, [list(range(1, width + 1))] + [[-at, -at - 1] for at in range(1, 2000, 2)]


for count in (100, 150, 200):
    for seed in range(20):
        write(f"random-{count}-{seed:02}", count, random_clauses(count, 4.26, seed))
write("sparse-10000", 10_000, random_clauses(10_000, 3.0, 0))
write("sparse-100000", 100_000, random_clauses(100_000, 3.0, 0))
for count in (8, 9):
    write(f"pigeons-{count}", *pigeons(count))
write("product-composite", *factors(12, 3989 * 4007))
write("product-prime", *factors(12, 12_582_917))
write("commutes-6", *commutes(6))
write("commutes-7", *commutes(7))
write("wide", *wide(200_000))
