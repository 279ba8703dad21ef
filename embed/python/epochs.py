"""A broker that goes on over epochs and restarts: the commits of both its domains are frames in two files, and it begins with what these have.

    epochs.py SCRIPT FILE CALLS EPOCH

It makes shared calls until this many commits' calls were made since the first start: each transaction counts one more, in `total` and in one of 1,000
cells, and is three shared calls. After each 100 of them the mounted device counts one more in its own domain, and the new frames are appended to FILE and
to FILE.1, which has those of the device. Then `written NUMBER NUMBER` is printed: what is written is not lost, whenever the process is killed. After
EPOCH shared calls the next epoch begins, the device is mounted again, and each file begins anew with one frame that has all rows.
"""
import os
import re
import sys

import mdsal

TOTAL, CELL, EACH = "/counters:counters/total", "/counters:counters/cell[k='{}']", 100
DEVICE, PLACE, PACKETS = 1, "/counters:counters", "/port:packets"


def whole_frames(data: bytes) -> tuple[int, int]:
    """Returns the number of the first frame, and the length of all whole frames."""
    at = 0
    while at + 9 <= len(data) and at + int(data[at : at + 8]) + 10 <= len(data):
        at += int(data[at : at + 8]) + 10
    first = re.match(rb'\d{8}\n{"commit":(\d+)', data)
    return (int(first[1]) if first and at else 0), at


def file_of(path: str, domain: int) -> str:
    return f"{path}.{domain}" if domain else path


def kept(path: str) -> tuple[int, bytes]:
    """Returns the number of the first frame in the file, and its whole frames. It loses one that was not finished."""
    data = open(path, "rb").read() if os.path.exists(path) else b""
    first, length = whole_frames(data)
    if data:
        os.truncate(path, length)
    return first, data[:length]


def started(script: bytes, path: str) -> mdsal.Broker:
    """Returns the broker that goes on with the files, or a new one with new files. The device is mounted."""
    streams = [kept(file_of(path, domain)) for domain in (0, DEVICE)]
    if streams[0][1]:
        standby = mdsal.StandBy(script, [first for first, _ in streams])
        for domain, (_, data) in enumerate(streams):
            standby.feed(data, domain)
        broker = standby.lead()
    else:
        broker = mdsal.Broker(script)
    for domain, (_, data) in enumerate(streams):
        if not data or not streams[0][1]:
            begin_file(broker, path, domain)
    mount(broker)
    return broker


def mount(broker: mdsal.Broker) -> None:
    broker.call(0, ["mount", DEVICE, PLACE])


def write(path: str, mode: str, data: bytes) -> None:
    with open(path, mode) as file:
        file.write(data)
        file.flush()
        os.fsync(file.fileno())


def begin_file(broker: mdsal.Broker, path: str, domain: int) -> None:
    """Makes the file anew, with one frame. Until it is renamed, the old one counts."""
    name = file_of(path, domain)
    write(f"{name}.new", "wb", broker.snapshot(domain))
    os.rename(f"{name}.new", name)


def append(broker: mdsal.Broker, path: str, sent: list[int]) -> list[int]:
    """Appends the frames above these numbers, and returns the newest ones."""
    for domain, number in enumerate(sent):
        write(file_of(path, domain), "ab", broker.frames(number, domain))
    return list(broker.numbers)


def resident() -> int:
    """Returns the memory of this process, in kilobytes."""
    with open("/proc/self/statm", encoding="ascii") as file:
        return int(file.read().split()[1]) * os.sysconf("SC_PAGE_SIZE") // 1024


def settle(broker: mdsal.Broker, what: str) -> None:
    broker.step(0, b'["submit",0]')
    if not broker.step(0, b'["settle",0]').startswith("done "):
        raise SystemExit(f"{what} is not committed")


def count(broker: mdsal.Broker, n: int) -> None:
    """Commits one more."""
    broker.step(0, b'["begin",0,0,"rw"]')
    broker.step(0, ["put", 0, "config", TOTAL, n])
    broker.step(0, ["put", 0, "config", CELL.format(n % 1000), {"k": n % 1000, "v": n}])
    settle(broker, f"commit {n}")


def count_packets(broker: mdsal.Broker, n: int) -> None:
    """Commits one more to the device."""
    broker.step(0, ["begin", 0, DEVICE, "rw"])
    broker.step(0, ["put", 0, "operational", PACKETS, n])
    settle(broker, f"commit {n} of the device")


def main() -> None:
    script, path, calls, epoch = open(sys.argv[1], "rb").read(), sys.argv[2], int(sys.argv[3]), int(sys.argv[4])
    broker = started(script, path)
    sent, room = list(broker.numbers), broker.left
    print("begins at", *sent, flush=True)
    while 3 * sent[0] < calls:
        for n in range(sent[0] + 1, sent[0] + EACH + 1):
            count(broker, n)
        count_packets(broker, sent[DEVICE] + 1)
        sent = append(broker, path, sent)
        print("written", *sent, flush=True)
        if room - broker.left >= epoch:
            broker.epoch(sent)
            for domain in (0, DEVICE):
                begin_file(broker, path, domain)
            mount(broker)
            print(f"epoch at {sent[0]}, {resident()} KB", flush=True)
    totals = broker.look("config", TOTAL), broker.look("operational", PACKETS, DEVICE)
    print(f"total {totals[0]} {totals[1]} at {sent[0]} {sent[1]}, {resident()} KB", flush=True)
    broker.close()


if __name__ == "__main__":
    main()
