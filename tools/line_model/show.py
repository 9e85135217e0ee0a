"""Shows one session, byte by byte: for a look at one line of a table."""

from ends import whole_at


def name_of(data):
    item = whole_at(data)
    if item and item[0] == "block" and len(data) > 3:
        if item[1] or data[0] == 2:
            return "block %d" % item[1]
        return "block 0" if data[3] else "the end block"
    names = {6: "ACK", 21: "NAK", 67: "C", 24: "CAN", 4: "EOT"}
    return " ".join(names.get(b, "%02x" % b) for b in data[:8])


def show(log, limit=80):
    for at, side, data in log[:limit]:
        print("%9.3f %13s %s" % (at / 1e6, side.rjust(1 if side == ">" else 13), name_of(data)))
