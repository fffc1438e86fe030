"""The grid: 14 bandwidths in Mbit/s and 14 queue limits in packets, which are 196 runs."""
MBITS = tuple(range(2, 16))
QUEUES = (5, 10, 15, 20, 30, 40, 50, 60, 80, 100, 125, 150, 175, 200)


def name(mbits: int, queue: int) -> str:
    return f"{mbits}-{queue}"


NAMES = [name(mbits, queue) for mbits in MBITS for queue in QUEUES]
