#!/usr/bin/env python3
"""Sums the numbers below N by workers in threads: sum.py LIBFJ N WORKERS.

A task divides its range among two children, or sums it; a completion action adds what its children found. The machine says who does what.
"""
import ctypes
import sys
import threading

RUN, HOOK, TRY, ASYNC, LEAF = 34, 37, 2, 0, 1000


class Reply(ctypes.Structure):
    _fields_ = [("code", ctypes.c_uint32), ("by", ctypes.c_uint32), ("number", ctypes.c_uint64)]


class Pool:
    def __init__(self, library, workers):
        self.fj, self.machine, self.lock = ctypes.CDLL(library), ctypes.c_void_p(), threading.Condition()
        self.ranges, self.children, self.sums = {}, {}, {}
        self.ask("new", ASYNC, workers, 1, 4096, 1048576)

    def ask(self, call, *arguments):
        function = getattr(self.fj, "fj_" + call)
        function.restype = Reply
        reply = function(ctypes.byref(self.machine), *arguments)
        if 0 < reply.code < 32:
            raise RuntimeError(f"fj_{call}: refused {reply.code}")
        return reply

    def work(self, w):
        with self.lock:
            while 0 not in self.sums:
                reply = self.ask("poll", w, w)
                self.run(w, reply.number) if reply.code == RUN else self.lock.wait()

    def run(self, w, t):
        first, end = self.ranges[t]
        middle, this = (first + end) // 2, ctypes.c_uint64(t)
        parts = [(first, middle), (middle, end)] if end - first > LEAF else []
        self.children[t] = [self.ask("fork_completer", w, this, 0, True).number for _ in parts]
        self.ranges.update(zip(self.children[t], parts))
        if parts:
            self.ask("add", w, this, len(parts))
        else:
            self.lock.release()
            found = sum(range(first, end))
            self.lock.acquire()
            self.sums[t] = found
        reply = self.ask("end", w, TRY, 0)
        while reply.code == HOOK:
            self.sums.setdefault(reply.number, sum(self.sums[child] for child in self.children[reply.number]))
            reply = self.ask("hook_done", w)
        self.lock.notify_all()


library, n, workers = sys.argv[1], int(sys.argv[2]), int(sys.argv[3])
pool = Pool(library, workers)
pool.ranges[pool.ask("submit_completer", 0, 0, True).number] = (0, n)
threads = [threading.Thread(target=pool.work, args=(w,)) for w in range(workers)]
[thread.start() for thread in threads]
[thread.join() for thread in threads]
print(pool.sums[0])
