"""Whether the pictures that `bench` filed are those of the oracle: each opened by PIL, its bytes and its text, a file for each line of
the oracle and no other file but index.html.

    /usr/bin/python3 tests/pictures.py FOLDER ORACLE_FOLDER LINES [CAPTURE]

FOLDER is what `bench` filled, ORACLE_FOLDER and LINES what `oracle capture CAPTURE ORACLE_FOLDER >LINES` left. Without CAPTURE its name
is only held to be the same in all pictures.
"""
import re
import sys
from pathlib import Path

from PIL import Image

WIDTH, HEIGHT = 160, 144
HEAD = b"P6 160 144 255\n"
BEHIND = {"whole": "", "torn": "-torn", "unseen": "-unseen"}
LINE = re.compile(
    r"picture (\d+) (whole|torn|unseen), (\d+) of 23040 places stored, requests: \d+ vblank, \d+ stat, filed as (picture-\d{5,}(?:-[a-z]+)?\.png)"
)
DONE = re.compile(r"done: \d+ pictures, \d+ whole, \d+ unseen, \d+ torn")


def fail(words):
    sys.exit(f"pictures: {words}")


def oracle_bytes(path):
    """The places of the oracle's picture."""
    data = path.read_bytes()
    if data[: len(HEAD)] != HEAD or len(data) != len(HEAD) + 3 * WIDTH * HEIGHT:
        fail(f"{path} is no picture of the oracle")
    return data[len(HEAD) :]


def opened(path):
    """The bytes and the text of a PNG file, all of its sums held."""
    try:
        with Image.open(path) as image:
            image.verify()
        with Image.open(path) as image:
            image.load()
            if (image.format, image.mode, image.size) != ("PNG", "RGB", (WIDTH, HEIGHT)):
                fail(f"{path} is {image.format}, {image.mode}, {image.size}")
            return image.tobytes(), dict(image.text)
    except Exception as error:
        fail(f"{path} cannot be opened: {error}")


def first_difference(one, other):
    """The first place at which two pictures differ, in words."""
    place = next(k for k in range(WIDTH * HEIGHT) if one[3 * k : 3 * k + 3] != other[3 * k : 3 * k + 3])
    at = slice(3 * place, 3 * place + 3)
    return f"x {place % WIDTH}, y {place // WIDTH}: {tuple(one[at])}, by the oracle {tuple(other[at])}"


def plain(name):
    """A capture's name as a picture has it: what is not printable ASCII is a question mark."""
    return "".join(chr(byte) if 32 <= byte <= 126 else "?" for byte in name.encode("utf-8", "surrogateescape"))


if len(sys.argv) not in (4, 5):
    sys.exit(__doc__)
folder, oracle, lines = map(Path, sys.argv[1:4])
capture = plain(Path(sys.argv[4]).name) if len(sys.argv) == 5 else None

names = []
for line in lines.read_text().splitlines():
    found = LINE.fullmatch(line)
    if not found:
        if DONE.fullmatch(line):
            continue
        fail(f"{lines} has a line of no picture: {line}")
    number, mark, stored, name = found.groups()
    if name != f"picture-{int(number):06}{BEHIND[mark]}.png" or int(number) != len(names) + 1:
        fail(f"{lines} has a picture of another name or number than comes next: {line}")
    names.append(name)
    path = folder / name
    if not path.is_file():
        fail(f"{path} is missing")
    data, text = opened(path)
    wanted = oracle_bytes(oracle / f"{int(number):06}.ppm")
    if data != wanted:
        fail(f"{path} differs at {first_difference(data, wanted)}")
    if capture is None:
        capture = text.get("Capture", "")
    said = {"Number": number, "Mark": mark, "Stored": stored, "Capture": capture}
    if text != said:
        fail(f"{path} says {text}, and is to say {said}")

if not names:
    fail(f"{lines} has no picture")
more = sorted({path.name for path in folder.iterdir()} - set(names) - {"index.html"})
if more:
    fail(f"{folder} has files of no picture: {' '.join(more)}")
print(f"pictures: {len(names)} of {folder} agree with the oracle, in every place and in their text")
