"""Recordings that the programs of Wireshark and tcpdump write of frames of the base tables."""
from __future__ import annotations

import os
import shutil
import subprocess

from frames import frame_of, number_of
from made_recordings import SENDERS
from program import Cases, must

LONGEST = 3600  # seconds of one run, which end one that hangs
STAMP = "-t '%Y-%m-%d %H:%M:%S.%f'"

# a file, and how it is made of those before it; what stands after `<` is its standard input
STEPS = {
    "a.pcap": f"text2pcap -q -F nsecpcap {STAMP} a.txt a.pcap",
    "b.pcap": f"text2pcap -q -F pcap {STAMP} b.txt b.pcap",
    "directions.pcapng": f"text2pcap -q -D -F pcapng {STAMP} directions.txt directions.pcapng",
    "named.pcapng": f"text2pcap -q -N eth1 -F pcapng {STAMP} a.txt named.pcapng",
    "edited.pcapng": "editcap -F pcapng a.pcap edited.pcapng",
    "edited-us.pcap": "editcap -F pcap a.pcap edited-us.pcap",
    "edited-ns.pcap": "editcap -F nsecpcap b.pcap edited-ns.pcap",
    "later.pcapng": "editcap -t 3600.25 a.pcap later.pcapng",
    "snapped.pcapng": "editcap -s 40 a.pcap snapped.pcapng",
    "chopped.pcapng": "editcap -C -4 a.pcap chopped.pcapng",
    "shortened.pcapng": "editcap -L -C -4 a.pcap shortened.pcapng",
    "comment.pcapng": "editcap -a 1:odd a.pcap comment.pcapng",
    "secrets.pcapng": "editcap --inject-secrets tls,keys.txt a.pcap secrets.pcapng",
    "range.pcapng": "editcap -r directions.pcapng range.pcapng 2-3",
    "wifi.pcap": "editcap -T ieee-802-11 -F pcap b.pcap wifi.pcap",
    "two.pcapng": "mergecap -I none -w two.pcapng a.pcap b.pcap",
    "one.pcapng": "mergecap -I all -w one.pcapng a.pcap b.pcap",
    "three.pcapng": "mergecap -I none -w three.pcapng b.pcap two.pcapng directions.pcapng",
    "behind.pcapng": "mergecap -a -I none -w behind.pcapng b.pcap a.pcap",
    "merged.pcap": "mergecap -F nsecpcap -w merged.pcap a.pcap b.pcap",
    "merged-snapped.pcapng": "mergecap -s 50 -I none -w merged-snapped.pcapng a.pcap b.pcap",
    "ordered.pcapng": "reordercap behind.pcapng ordered.pcapng",
    "dumped.pcap": "tcpdump -r two.pcapng -w dumped.pcap",
    "dumped-ns.pcap": "tcpdump --time-stamp-precision=nano -r a.pcap -w dumped-ns.pcap",
    "caught.pcapng": "dumpcap -q -i - -w caught.pcapng < a.pcap",
    "caught.pcap": "dumpcap -q -P -i - -w caught.pcap < b.pcap",
    "caught-two.pcapng": "dumpcap -q -i - -w caught-two.pcapng < two.pcapng",
    "caught-short.pcapng": "dumpcap -q -s 50 -i - -w caught-short.pcapng < a.pcap",
    "remarked.pcapng": "dumpcap -q --capture-comment odd -i - -w remarked.pcapng < b.pcap",
}
PROGRAMS = sorted({words.split()[0] for words in STEPS.values()})


def dump_of(number: int, side: str, mark: str = "") -> str:
    """A frame as text2pcap reads it, with its stamp, and a letter in front where there is one."""
    vl = 1 + number % 2
    payload = bytes(number * 7 % 256 for _ in range(number * 13))
    frame = frame_of(SENDERS[vl], vl, 1000 * vl, payload, number_of(number), side)[:-4]
    time = f"2026-01-02 03:04:{5 + number // 4:02}.{number % 4 * 123_456_789:09}"
    rows = [frame[at : at + 16] for at in range(0, len(frame), 16)]
    lines = [f"{16 * place:06x} {row.hex(' ')}" for place, row in enumerate(rows)]
    return "\n".join([mark + time, *lines, "", ""])


def write_texts(folder: str) -> None:
    """What the first steps read."""
    texts = {
        "a.txt": "".join(dump_of(number, "A") for number in range(9)),
        "b.txt": "".join(dump_of(number, "B") for number in range(9)),
        "directions.txt": "".join(dump_of(n, "AB"[n % 2], "IO"[n % 2] + " ") for n in range(6)),
        "keys.txt": f"CLIENT_RANDOM {'00' * 32} {'11' * 48}\n",
    }
    for name, text in texts.items():
        with open(os.path.join(folder, name), "w", encoding="ascii") as file:
            file.write(text)


def write(folder: str, name: str) -> str:
    """Writes one of the recordings; its path."""
    done = subprocess.run(
        ["bash", "-c", STEPS[name]],
        cwd=folder,
        env={**os.environ, "TZ": "UTC", "LC_ALL": "C"},
        capture_output=True,
        timeout=LONGEST,
        check=False,
    )
    path = os.path.join(folder, name)
    must(done.returncode == 0 and os.path.exists(path), f"{STEPS[name]}: {done.stderr!r}")
    return path


def try_foreign(cases: Cases, folder: str) -> dict[str, str]:
    """Writes all of which the program is installed; the paths by the names."""
    missing = [each for each in PROGRAMS if shutil.which(each) is None]
    for each in missing:
        cases.skip(f"what {each} writes", "it isn't installed (apt-get install tshark tcpdump)")
    write_texts(folder)
    names = [name for name, words in STEPS.items() if words.split()[0] not in missing]
    for name in names:
        cases.try_case(f"written: {STEPS[name]}", write, folder, name)
    paths = {name: os.path.join(folder, name) for name in names}
    return {name: path for name, path in paths.items() if os.path.exists(path)}
