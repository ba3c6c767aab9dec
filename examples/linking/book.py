"""The library from Python, by ctypes: python3 book.py ../../target/library/lib/libslatewhim.so. What it prints is in book.out."""
import sys
from ctypes import CDLL, Structure, c_size_t, c_uint32, c_uint64

WORDS, FIELDS, RECORD, ALL = 1279, 96, 27, 16383  # as in slatewhim.h


class Opened(Structure):
    _fields_ = [("refusal", c_uint32), ("cells", c_uint32), ("region", c_uint32), ("method", c_uint32),
                ("excess", c_uint64), ("t", c_uint32), ("months", c_uint32 * 12)]


class Account(Structure):
    _fields_ = [("code", c_uint32), ("region", c_uint32), ("method", c_uint32), ("count", c_uint32),
                ("months", c_uint32 * 12), ("rebate", c_uint64)]


class Run(Structure):
    _fields_ = [("refusal", c_uint32), ("place", c_uint64), ("total", c_uint64)]


library = CDLL(sys.argv[1] if len(sys.argv) > 1 else "libslatewhim.so")
library.slatewhim_open.restype = Opened
library.slatewhim_rebates.restype = Run
book = (c_uint32 * WORDS)()


def call(name, *arguments):
    return getattr(library, "slatewhim_" + name)(book, c_size_t(WORDS), *arguments)


def put(code, *numbers):
    return call("put", ALL, code, (c_uint32 * RECORD)(*numbers), c_size_t(RECORD))


sheet = [0, 30000000, 0, 36000000] + [0, 1000000] * 2 + [1000000, 8000000] * 2 + [5000000, 9000000] * 2
sheet += [10000, 10000, 20000, 0, 400000, 0, 1000] + [100] * 6 + [1100, 100, 105] + [100] * 4 + [500000]
sheet += [2000000, 12000000] * 28 + [3000, 4000, 580]
print("fresh:", call("fresh"), "check:", call("check"))
print("set:", call("set", ALL, (c_uint32 * FIELDS)(*sheet), c_size_t(FIELDS), 2023, 10, 3))
print("put:", put(1, 1, 1, 23000, ALL, 3, 18000), put(2, 1, 2, 20000, ALL, 3, 20000, 15000, 0, 0, 100))
print("open 1:", call("open", ALL, 1).cells, "cells")
over = call("open", ALL, 2)
print("open 2: refused", over.refusal, "region", over.region, "method", over.method, "excess", over.excess, over.months[:over.t])
print("direct:", call("direct", ALL, 2), "open:", call("open", ALL, 2).refusal)
accounts = (Account * 2)((2, 0, 1, 3, (100, 100, 100)), (2, 0, 1, 3, (300, 0, 0)))
print("rebates:", call("rebates", ALL, accounts, c_size_t(2)).total, [account.rebate for account in accounts])
