"""Changes one byte of a certificate at a time: none of these is accepted with a higher bound.

    python3 tests/changed_bytes.py PROGRAM CERTIFICATE PLACES
"""

import os
import subprocess
import sys
import tempfile


def accepted_bound(program, name):
    """The bound that `check` prints, as text, or None where it refuses with one line and prints nothing."""
    ran = subprocess.run([program, "check", "--certificate", name], capture_output=True, stdin=subprocess.DEVNULL)
    if ran.returncode == 0:
        return dict(line.split(",") for line in ran.stdout.decode().splitlines())["bound"]
    if ran.returncode != 4 or ran.stdout or not ran.stderr.startswith(b"fault,") or ran.stderr.count(b"\n") != 1:
        sys.exit("status %s, %r, %r" % (ran.returncode, ran.stdout, ran.stderr))
    return None


def places_of(size, count):
    """Half of the places over the whole file, the others among its last bytes, where the claims stand."""
    half = count // 2
    return [size * k // half for k in range(half)] + [size - 1 - k for k in range(count - half)]


def other_byte(byte, turn):
    """Another digit for a digit, else another byte."""
    if 48 <= byte <= 57:
        return 48 + (byte - 48 + 1 + turn % 9) % 10
    return byte ^ (1 << turn % 8)


def main():
    program, name, count = sys.argv[1], sys.argv[2], int(sys.argv[3])
    with open(name, "rb") as file:
        whole = file.read()
    bound = accepted_bound(program, name)
    if bound is None:
        sys.exit("the certificate itself is refused")
    taken = 0
    with tempfile.TemporaryDirectory() as room:
        changed = os.path.join(room, "certificate")
        for turn, place in enumerate(places_of(len(whole), count)):
            byte = other_byte(whole[place], turn)
            with open(changed, "wb") as file:
                file.write(whole[:place] + bytes([byte]) + whole[place + 1 :])
            found = accepted_bound(program, changed)
            if found is not None:
                taken += 1
                if float(found) > float(bound):
                    sys.exit("byte %d changed to %d: accepted with the bound %s, not %s" % (place, byte, found, bound))
    print("%d changed bytes, %d accepted, none with a bound above %s" % (count, taken, bound))


main()
