"""Prints the median processor time of numpy.cov and of scikit-learn's ledoit_wolf on stored returns, and of numpy's
returns from stored prices, and the BLAS that numpy runs on.

Arguments: a folder of files ASSETSxPERIODS, each the returns row by row as 8-byte floats, and one of files ASSETSxROWS
with prices."""
import os
import statistics
import sys
import time

try:
    import numpy
except ImportError:
    sys.exit(1)
try:
    from sklearn.covariance import ledoit_wolf
except ImportError:
    ledoit_wolf = None


def micros(work):
    def once():
        start = time.thread_time_ns()
        work()
        return (time.thread_time_ns() - start) / 1e3

    return statistics.median(once() for _ in range(41))


def blas():
    """The files that numpy has loaded its BLAS from, with their folders."""
    with open("/proc/self/maps") as maps:
        files = {"/".join(line.split()[-1].split("/")[-2:]) for line in maps if "blas" in line}
    return ", ".join(sorted(file for file in files if "/lib" in file and "blas" in file.split("/")[1]))


def matrices(folder):
    """The shape and the numbers of each file, small ones first."""
    for name in sorted(os.listdir(folder), key=lambda name: [int(x) for x in name.split("x")]):
        assets, rows = (int(x) for x in name.split("x"))
        yield f"{assets} × {rows}", numpy.fromfile(os.path.join(folder, name)).reshape(rows, assets)


print(f"numpy {numpy.__version__}, BLAS: {blas()}")
print(f"{'peer, one thread':40} {'µs':>10}")
for shape, x in matrices(sys.argv[1]):
    print(f"{'numpy.cov, ' + shape:40} {micros(lambda: numpy.cov(x, rowvar=False)):>10.1f}")
    if ledoit_wolf:
        print(f"{'sklearn ledoit_wolf, ' + shape:40} {micros(lambda: ledoit_wolf(x)):>10.1f}")
    else:
        print("scikit-learn: not installed")
for shape, p in matrices(sys.argv[2]):
    print(f"{'numpy p[1:] / p[:-1] - 1, ' + shape:40} {micros(lambda: p[1:] / p[:-1] - 1):>10.1f}")
