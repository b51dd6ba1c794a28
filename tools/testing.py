"""What the test scripts share: how a command is run and looked at, how cases are listed and counted, and senders' octets made without the
product: packets, frames, recordings, KISS and raw bits.

A test script has functions marked @case, each given a folder of its own, and ends with testing.main(). It prints a line a case, 'ok NAME',
'not ok NAME: why' or 'skipped NAME: why', and ends with 1 if any was not ok."""
import collections
import os
import pathlib
import stat
import subprocess
import sys
import tempfile
import time
from binascii import crc_hqx

TOP = pathlib.Path(__file__).resolve().parent.parent
SAMPLES = TOP / "samples"
READY = TOP / "ready/x86_64-linux"
AMETZUKO = TOP / "ametzuko"
HEADER = b"arrival answer channel lost master packets\n"
NOBODY = 65534
CASES = []


class Skipped(Exception):
    """What cannot be shown here."""


def case(function):
    CASES.append(function)
    return function


def main():
    """Runs the cases, or those whose names hold a word of the script's own."""
    failed, words = 0, sys.argv[1:]
    os.chdir(TOP)
    for function in CASES:
        name = function.__name__.replace("_", " ")
        if words and not any(word in name for word in words):
            continue
        began = time.time()
        with tempfile.TemporaryDirectory() as folder:
            os.chmod(folder, stat.S_IRWXU | stat.S_IXGRP | stat.S_IRGRP | stat.S_IXOTH | stat.S_IROTH)
            try:
                function(pathlib.Path(folder))
                print(f"ok {name} ({time.time() - began:.1f} s)", flush=True)
            except Skipped as reason:
                print(f"skipped {name}: {reason}", flush=True)
            except (AssertionError, OSError, subprocess.SubprocessError, LookupError, ValueError) as reason:
                failed += 1
                print(f"not ok {name}: {type(reason).__name__}: {reason}", flush=True)
    sys.exit(1 if failed else 0)


# Runs.

class Ran:
    """One whole run: its status as a shell sees it, what it wrote and what it said."""

    def __init__(self, words, given=b"", seconds=120, **more):
        for name in ("stdin", "stdout", "stderr"):
            more.setdefault(name, subprocess.PIPE)
        child = subprocess.Popen([str(word) for word in words], **more)
        try:
            self.wrote, self.said = child.communicate(given if child.stdin else None, seconds)
        except subprocess.TimeoutExpired:
            child.kill()
            raise
        self.status = child.returncode if child.returncode >= 0 else 128 - child.returncode

    def all(self):
        return self.status, self.wrote, self.said

    def text(self):
        return self.status, self.wrote.decode("latin-1"), self.said.decode("latin-1")


def run(*words, **more):
    """A run of the command: run("decode", FILE)."""
    return Ran([AMETZUKO, *words], **more)


def expect(ran, status, wrote=None, said=None):
    """The run ended with the status, wrote exactly this, and said a text with this in it (b"" for nothing at all)."""
    assert ran.status == status, f"status {ran.status}, not {status}; said {ran.said!r}"
    assert wrote is None or ran.wrote == wrote, f"wrote {ran.wrote[:200]!r}"
    assert said is None or (said in ran.said if said else not ran.said), f"said {ran.said!r}"


def one_line(ran, name):
    """What it said is one line behind the name."""
    assert ran.said.count(b"\n") == 1 and ran.said.endswith(b"\n") and ran.said.startswith(f"{name}: ".encode()), f"said {ran.said!r}"


def closing(number):
    """For a child that is to start with a descriptor closed."""
    def close():
        try:
            os.close(number)
        except OSError:
            # it is closed already
            pass
    return close


def as_nobody():
    """For a child that is to start as another user, where this one is root."""
    os.setgroups([])
    os.setgid(NOBODY)
    os.setuid(NOBODY)


def until(holds, why, seconds=20):
    end = time.time() + seconds
    while not holds():
        assert time.time() < end, why
        time.sleep(0.02)


def path_without_rt(room):
    """The folders of PATH, with a stand-in for each that has rt: the same programs but that."""
    farm, path = room / "farm", []
    farm.mkdir()
    for folder in os.environ["PATH"].split(":"):
        if not os.access(os.path.join(folder, "rt"), os.X_OK):
            path.append(folder)
            continue
        path.append(str(farm))
        for name in os.listdir(folder):
            if name != "rt" and not (farm / name).exists():
                (farm / name).symlink_to(os.path.join(folder, name))
    return ":".join(path)


def runs_without_rt():
    """Whether the programs run here without the kit: on x86-64, or with Debian's emulator and an x86-64 C library."""
    machine = os.uname().machine
    if machine == "x86_64":
        return True
    emulator = any(os.access(os.path.join(folder, name), os.X_OK) for folder in os.get_exec_path() for name in ("qemu-x86_64", "qemu-x86_64-static"))
    return emulator and any(os.path.exists(root + "/lib64/ld-linux-x86-64.so.2") for root in ("/usr/x86_64-linux-gnu", ""))


# Senders' octets, after source documents 000 and 001, worked out here and not by the product.

LOW_FIRST = bytes(int(f"{n:08b}"[::-1], 2) for n in range(256))
FLAG = "01111110"


def packet(apid, count, kind, source=b"", time=0):
    """A packet of the type and subtype kind."""
    head = (0x0800 | apid).to_bytes(2, "big") + (0xC000 | count).to_bytes(2, "big") + (len(source) + 9).to_bytes(2, "big")
    octets = head + bytes([0x10, *kind]) + time.to_bytes(5, "big") + source
    return octets + crc_hqx(octets, 0xFFFF).to_bytes(2, "big")


def report(apid, count, time, sid, parameters):
    """A housekeeping packet, (3,25)."""
    return packet(apid, count, (3, 25), bytes([sid]) + parameters, time)


def callsign(name, ssid, last):
    return bytes(ord(c) << 1 for c in name.ljust(6)) + bytes([0x60 | ssid << 1 | last])


ADDRESSES = callsign("HB9EG", 0, 0) + callsign("HB9EG", 1, 1) + b"\x03\xf0"


def frame(channel, master, count, data, pointer=0, t=0):
    """A frame whose time is t octets 0."""
    body = ADDRESSES + bytes([channel << 3, master % 256, count % 256, pointer]) + data + bytes([(7 + t) << 4 if t else 0]) + bytes(t)
    check = crc_hqx(body.translate(LOW_FIRST), 0xFFFF) ^ 0xFFFF
    return body + bytes([LOW_FIRST[check >> 8], LOW_FIRST[check & 255]])


def recording(frames, t=0):
    """A recording of frames."""
    return b"\0\0\0\1" + bytes([t]) + len(frames).to_bytes(4, "big") + b"".join(len(f).to_bytes(2, "big") + f for f in frames)


def frames_of(octets):
    """The frames of a recording."""
    at, found = 9, []
    while at < len(octets):
        n = int.from_bytes(octets[at:at + 2], "big")
        found.append(octets[at + 2:at + 2 + n])
        at += 2 + n
    return found


def kiss(frames, both=False):
    """Frames as KISS: 0xC0, then each without its check, behind the type octet, with escapes, and 0xC0; with both, 0xC0 before each too."""
    blocks = [b"\0" + f[:-2].replace(b"\xdb", b"\xdb\xdd").replace(b"\xc0", b"\xdb\xdc") for f in frames]
    return b"\xc0" + b"".join((b"\xc0" if both else b"") + block + b"\xc0" for block in blocks)


BITS = [f"{n:08b}"[::-1] for n in range(256)]


def bits(frames):
    """Frames as a row of raw bits, one flag between two."""
    return FLAG + "".join("".join(BITS[octet] for octet in f).replace("11111", "111110") + FLAG for f in frames)


def packed(row):
    """Bits as octets, the earliest in the top, the last octet filled up with 0."""
    row = row.ljust(-(-len(row) // 8) * 8, "0")
    return int(row, 2).to_bytes(len(row) // 8, "big") if row else b""


# What a summary is to say, counted from a listing's lines and the packets' octets.

def packets_of(listing, octets):
    """The octets of the packets that a listing of a recording names, each found by its header in the frames from its first to its last."""
    t, frames, data, found = octets[4], frames_of(octets), {}, []
    for line in listing.decode().splitlines():
        word = line.split()
        if word[0] == "P":
            first, last, apid, count, size = int(word[1]), int(word[2]), int(word[3]), int(word[4]), int(word[7])
            row = b"".join(data[n][1] for n in sorted(data) if first <= n <= last and data[n][0] == data[last][0])
            head = (0x0800 | apid).to_bytes(2, "big") + (0xC000 | count).to_bytes(2, "big") + (size - 7).to_bytes(2, "big")
            starts = [i for i in range(len(row) - size + 1) if row[i:i + 6] == head]
            found.append(next(row[i:i + size] for i in starts if crc_hqx(row[i:i + size - 2], 0xFFFF) == int.from_bytes(row[i + size - 2:i + size], "big")))
        elif word[0].isdigit() and word[1] == "0":
            octets = frames[int(word[0]) - 1]
            data[int(word[0])] = octets[16] >> 3 & 7, octets[20:len(octets) - 3 - t]
    return found


def of_channel(rows, channel, losses):
    """The rows of a channel's losses, or of all channels' with no number."""
    subject = ("channel", channel) if channel is not None else ("all", "")
    rows.append((*subject, "lost", sum(int(loss) for loss in losses if loss != "?")))
    rows.append((*subject, "unknown", losses.count("?")))


def summary_rows(listing, packets):
    """The rows of a summary as CSV: subject, key, measure and number."""
    words = [line.split() for line in listing.decode().splitlines()[1:]]
    frames = [word for word in words if word[0].isdigit()]
    good, read = [word for word in frames if word[1] == "0"], [word for word in words if word[0] == "P"]
    refused, away = collections.Counter(int(word[1]) for word in frames if word[1] != "0"), collections.Counter(int(word[3]) for word in words if word[0] == "Q")
    rows = [("frames", "", "accepted", len(good)), ("frames", "", "refused", refused.total())] if frames else []
    rows += [("frames", number, "refused", many) for number, many in sorted(refused.items())]
    for channel in sorted({int(word[2]) for word in good}):
        own = [word[3] for word in good if int(word[2]) == channel]
        rows.append(("channel", channel, "frames", len(own)))
        of_channel(rows, channel, own)
    if good:
        of_channel(rows, None, [word[4] for word in good])
    rows += [("packets", "", "read", len(read)), ("packets", "", "turned away", away.total())] if read or away else []
    keys = collections.Counter(tuple(map(int, (word[3], word[5], word[6]))) for word in read)
    rows += [("packets", "/".join(map(str, key)), "read", many) for key, many in sorted(keys.items())]
    rows += [("packets", number, "turned away", many) for number, many in sorted(away.items())]
    last, missing, restarted, lines = {}, collections.Counter(), collections.Counter(), {}
    for apid, count in ((int(word[3]), int(word[4])) for word in read):
        if apid in last:
            again = count == 0 and last[apid] != 16383
            restarted[apid] += again
            missing[apid] += 0 if again else (count - last[apid] - 1) % 16384
        last[apid] = count
    for apid in sorted(last):
        if missing[apid] or restarted[apid]:
            rows += [("apid", apid, "missing", missing[apid]), ("apid", apid, "restarted", restarted[apid])]
    for octets in packets:
        if octets[7:9] == b"\x80\x07" and len(octets) == 207 and octets[16] < 120:
            lines.setdefault(int.from_bytes(octets[14:16], "big"), set()).add(octets[16])
    rows += [("image", image, "lines", len(got)) for image, got in list(lines.items())[:1024]]
    return rows


def summary_csv(listing, packets):
    """The summary of a listing as CSV."""
    return "".join(",".join(map(str, row)) + "\n" for row in [("subject", "key", "measure", "value"), *summary_rows(listing, packets)]).encode()


def percent(part, whole):
    return f"{part} ({part * 1000 // whole // 10}.{part * 1000 // whole % 10} %)"


def summary_of(listing, packets):
    """The summary of a listing as text."""
    rows = {(subject, key, measure): number for subject, key, measure, number in summary_rows(listing, packets)}
    text = ""
    for (subject, key, measure), number in rows.items():
        of = lambda other: rows[(subject, key, other)]
        if (subject, key, measure) == ("frames", "", "accepted"):
            whole = number + of("refused")
            text += f"frames {whole}: accepted {percent(number, whole)}, refused {percent(of('refused'), whole)}\n"
        elif subject == "frames" and key != "":
            text += f"refused with {key}: {number}\n"
        elif subject == "channel" and measure == "frames":
            text += f"channel {key}: frames {number}, lost {percent(of('lost'), number + of('lost'))}, unknown {of('unknown')}\n"
        elif subject == "all" and measure == "lost":
            text += f"all channels: lost {percent(number, rows[('frames', '', 'accepted')] + number)}, unknown {of('unknown')}\n"
        elif (subject, key, measure) == ("packets", "", "read"):
            whole = number + of("turned away")
            text += f"packets {whole}: read {percent(number, whole)}, turned away {percent(of('turned away'), whole)}\n"
        elif subject == "packets" and measure == "read":
            text += "APID {} ({},{}): {}\n".format(*key.split("/"), number)
        elif subject == "packets" and key != "":
            text += f"turned away with {key}: {number}\n"
        elif subject == "apid" and measure == "missing":
            text += f"APID {key}: missing {number}, restarted {of('restarted')}\n"
        elif subject == "image":
            text += f"image {key}: {number} of 120 lines\n"
    return text.encode()
