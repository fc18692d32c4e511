"""The whole process on ten numbers, beside a program that starts and joins as many threads, in turns."""
import subprocess
import sys
import time


def seconds(words, given):
    start = time.perf_counter()
    subprocess.run(words, input=given, stdout=subprocess.PIPE, check=True)
    return time.perf_counter() - start


ours, peer = [], []
for _ in range(40):
    ours.append(seconds([sys.argv[1]], b"sum 4 10\n"))
    peer.append(seconds([sys.argv[2]], b""))
print(f"the whole process on ten numbers: {min(ours) / min(peer):.2f} times a program that starts and joins four threads")
