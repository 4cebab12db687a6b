"""scipy's k-d tree on what host/field.cpp left in a folder: field.py FOLDER prints one line of the table.

Times are the processor's, the least mean of several passes, one query a call from Python. The rows within r must be the
library's, and so must the distances of the nearest; exit status 1 where they are not."""
import sys
import time

import numpy
from scipy.spatial import cKDTree

COLUMNS, WANTED, PASSES = 6, 10, 6


def least_mean(calls, call):
    best = float("inf")
    for _ in range(PASSES):
        begin = time.process_time()
        for i in range(calls):
            call(i)
        best = min(best, (time.process_time() - begin) / calls)
    return best


def same_answers(tree, queries, r, folder):
    inside = numpy.fromfile(folder + "/inside", numpy.uint32)
    rows = numpy.split(numpy.fromfile(folder + "/rows", numpy.uint32), numpy.cumsum(inside)[:-1])
    far = numpy.fromfile(folder + "/far", numpy.uint32).reshape(-1, WANTED)
    return all(
        sorted(tree.query_ball_point(q, r, p=1)) == list(rows[i]) and numpy.array_equal(tree.query(q, k=WANTED, p=1)[0], far[i])
        for i, q in enumerate(queries)
    )


def main(folder):
    table = numpy.fromfile(folder + "/table", numpy.uint16).reshape(-1, COLUMNS).astype(float)
    queries = numpy.fromfile(folder + "/queries", numpy.uint16).reshape(-1, COLUMNS).astype(float)
    r = int(numpy.fromfile(folder + "/r", numpy.uint32)[0])
    built = least_mean(1, lambda _: cKDTree(table))
    tree = cKDTree(table)
    if not same_answers(tree, queries, r, folder):
        print("DIFFERENCE: cKDTree")
        return 1
    radius = least_mean(len(queries), lambda i: tree.query_ball_point(queries[i], r, p=1))
    nearest = least_mean(len(queries), lambda i: tree.query(queries[i], k=WANTED, p=1))
    print(f"| {len(table)} | scipy cKDTree, p = 1, leaves of 16 | {1e3 * built:.1f} | {1e6 * radius:.1f} | {1e6 * nearest:.1f} |")
    return 0


if __name__ == "__main__":
    sys.exit(main(sys.argv[1]))
