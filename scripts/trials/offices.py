"""What three offices make of numbers that are dialled at the first, by Python; and the noise of their trunks. The words:
make FOLDER NUMBERS writes the tables (a.toml, b.toml, c.toml), the numbers, and the page of each office; send FOLDER
NUMBERS writes the table, the numbers and the page of an office at the end of a far sender's trunk; noise NAME changes
each sample of standard input by up to 277."""
import random
import sys
from array import array

from tandem import order, page

MOST_NOISE, LINE, TRUNKS = 277, 7, 10_000


def text_of(routes):
    return "".join(
        f'[[route]]\ncode = "{code}"\ntrunk = {trunk}\ndelete = {delete}\nprefix = "{prefix}"\n'
        for code, trunk, delete, prefix in routes)


def keyed(routes, numbers):
    """What an office keys of the digits that its register takes: no number has none, or more than ten."""
    orders = [order(routes, ("NUMBER", digits)) for digits in numbers if 1 <= len(digits) <= 10]
    return [digits for what, digits in orders if isinstance(what, int)]


def drawn(dice):
    """A table: most office codes, with digits deleted and put before, so that most numbers have a route at the next office."""
    routes = []
    for code in (f"{a}{b}{c}" for a in range(2, 10) for b in range(2, 10) for c in range(10)):
        if dice.random() < 0.9:
            prefix = "".join(dice.choice("23456789") for _ in range(dice.choice([0, 1, 2, 3, 3, 8])))
            most = 7 if prefix else 6  # a route that keys no digit of seven is refused
            routes.append((code, dice.randrange(TRUNKS), dice.choice([0, 0, 1, 2, 3, most]), prefix))
    return routes


def write(path, text):
    with open(path, "w", encoding="ascii") as file:
        file.write(text)


def page_of(routes, numbers):
    """The page of an office: as that of keys which these numbers come of, one keying each."""
    keys, now = [], 0
    for digits in numbers:
        for what in ["KP", *map(int, digits), "ST"]:
            keys.append((what, now, now + 68))
            now += 136
    return page(routes, keys, LINE, 10_000, False)


def make(folder, count):
    dice = random.Random(2025)
    tables = [drawn(dice) for _ in "abc"]
    numbers = [f"{dice.randint(2, 9)}{dice.randint(2, 9)}{dice.randrange(10 ** 5):05}" for _ in range(count)]
    write(f"{folder}/numbers", "".join(f"{LINE} {number}\n" for number in numbers))
    for name, routes in zip("abc", tables):
        write(f"{folder}/{name}.toml", text_of(routes))
        write(f"{folder}/{name}.page", page_of(routes, numbers))
        numbers = keyed(routes, numbers)


def send(folder, count):
    """Numbers of 1 to 10 digits for a far sender, and the office that takes them."""
    dice = random.Random(2026)
    routes = drawn(dice)
    numbers = ["".join(dice.choice("0123456789") for _ in range(dice.randint(1, 10))) for _ in range(count // 2)]
    numbers += [f"{dice.randint(2, 9)}{dice.randint(2, 9)}{dice.randrange(10 ** 5):05}" for _ in range(count - len(numbers))]
    write(f"{folder}/numbers", "".join(number + "\n" for number in numbers))
    write(f"{folder}/b.toml", text_of(routes))
    write(f"{folder}/b.page", page_of(routes, numbers))


def noise(seed):
    dice, left = random.Random(seed), b""
    while block := sys.stdin.buffer.read(16_000):
        block = left + block
        left = block[len(block) & ~1:]
        samples = array("h", block[:len(block) & ~1])
        for n, sample in enumerate(samples):
            samples[n] = sample + dice.randint(-MOST_NOISE, MOST_NOISE)
        sys.stdout.buffer.write(samples.tobytes())
        sys.stdout.buffer.flush()


if __name__ == "__main__":
    if sys.argv[1] == "make":
        make(sys.argv[2], int(sys.argv[3]))
    elif sys.argv[1] == "send":
        send(sys.argv[2], int(sys.argv[3]))
    else:
        noise(sys.argv[2])
