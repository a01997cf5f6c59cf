"""The exports texts of benchmarks. A text has lines of one shape: a function that makes one from the mount points and a
random generator. Those at the end make the line of a number, of one file system."""

import random

MIB = 1024 * 1024
SIZES = [1, 2, 4, 8, 16]
THOUSANDS = [1, 2, 4, 8, 16, 32, 64]
DEEP = 24


def short_line(mounts, rng):
    """Lines of 40 to 80 bytes."""
    address = f"10.{rng.randrange(256)}.{rng.randrange(256)}.{rng.randrange(256)}"
    line = f"{rng.choice(mounts)}/export/{rng.randrange(10**8)} -ro {address}"
    return line.ljust(rng.randrange(39, 80)) + "\n"


def long_line(mounts, rng, longest=65536):
    """Lines of 64 KiB whose words have 8 to 40 bytes."""
    words, length = [f"{rng.choice(mounts)}/export"], 16
    while length < longest - 42:
        word = f"h{rng.randrange(10**8)}".ljust(rng.randrange(8, 41), "x")
        words.append(word)
        length += len(word) + 1
    return " ".join(words) + "\n"


def line_of_directories(mounts, rng):
    """Lines with 50 directories each."""
    mount = rng.choice(mounts)
    directories = (f"{mount}/export/{rng.randrange(10**6)}" for _ in range(50))
    return " ".join(directories) + " 10.0.0.5\n"


def line_of_options(mounts, rng):
    """Lines with every option, and networks in each of their forms."""
    # (The terms depend on the clients alone, so that no two lines contradict each other.)
    directory = f"{rng.choice(mounts)}/export/{rng.randrange(10**6)}"
    a, b = rng.randrange(256), rng.randrange(256)
    options = rng.choice(
        [
            f"-ro -maproot=0:{a}:{b} -sec=krb5i:krb5:sys -network 10.{a}.{b} -mask 255.255.255.0",
            f"-quiet,o -mapall 65534:{a} -network=11.{a}.{b}.0/{rng.randrange(16, 33)}",
            f"-r {a}: -sec krb5p:krb5p -network 192.{a}.{b}/24",
            f"-maproot={a}:{b} -network 3ffe:{a}:{b}::/64",
            f"-o,sec=sys,mapall={a}:5 10.{a}.{b}.5 10.{b}.{a}.6 fe80::{a}",
        ]
    )
    return f"{directory} {options}\n"


def shortest(mounts, rng):
    """Shortest lines (`/` and `/ 1.2.3.4`)."""
    return "/\n" if rng.random() < 0.5 else "/ 1.2.3.4\n"


def mount_points(shape, count):
    """The mount points for lines of a shape, and a directory to ask for."""
    first = "/" if shape is shortest else "/usr"
    directory = "/" if shape is shortest else "/usr/export"
    return [first, *(f"/mount{n:03}" for n in range(count - 1))], directory


def write_text(path, shape, size, mounts, rng):
    """Writes lines of a shape up to a size. They are written one by one, since the peak memory of a
    child counts what this process held when it began."""
    left = size
    with open(path, "w", encoding="utf-8") as text:
        while len(line := shape(mounts, rng)) <= left:
            text.write(line)
            left -= len(line)


def address(number):
    return ".".join(str(number >> shift & 255) for shift in (24, 16, 8, 0))


def host(number, _):
    """a host each"""
    return f"/a {address(2 * number + 2)}\n"


def nested(number, _):
    """networks, 24 in one another"""
    inner = random.Random(number // DEEP).getrandbits(32)
    return f"/a -network {address(inner)}/{9 + number % DEEP}\n"


def mix(number, chance):
    """a mix"""
    kind = number % 4
    if kind == 0:
        return f"/a -ro {address(chance.getrandbits(32))}\n"
    if kind == 1:
        return f"/a -ro {' '.join(address(chance.getrandbits(32)) for _ in range(16))}\n"
    return f"/a{' -alldirs' if kind == 2 else ''} -network {address(chance.getrandbits(32))}/{chance.randint(8, 32)}\n"


def one_key(number, _):
    """many under one key"""
    return f"/a/export{number}\n" if number % 2 else f"/a {address(2 * number + 2)}\n"


def wide(number, _):
    """many under one key, with 32 directories each"""
    return f"{' '.join(f'/a/export{number}x{k}' for k in range(32))}\n" if number % 2 else f"/a {address(2 * number + 2)}\n"


def alldirs_each_thousandth(number, chance):
    """many under one key, with -alldirs in each thousandth line"""
    return "/a -alldirs\n" if number % 1000 == 999 else one_key(number, chance)


def alldirs_first(number, chance):
    """many under one key, with -alldirs in the first"""
    return "/a -alldirs\n" if number == 1 else one_key(number, chance)


# (with the most lines, in thousands)
WHO_SHAPES = [(host, 64), (nested, 64), (mix, 64), (one_key, 64), (wide, 16), (alldirs_each_thousandth, 64), (alldirs_first, 64)]
