#!/usr/bin/env python3
"""Puts and gets of files through one gateway and through several, over the same Redis servers and behind HAProxy.

For each number of gateways and each length: requests a second, the median and the 99th of 100 in milliseconds, and how much
processor time of the gateways, the Redis servers and HAProxy a request took. A request that isn't answered 200 is counted.
Then how long a start takes over all that stands, and a get from a gateway that has just started beside one from memory.

It needs redis-server, haproxy and wrk (Debian's packages of these names).

usage: bench/times/gateways.py WOZHINNAM [--gates 1,2,4] [--sizes 4194304,10000] [--seconds N] [--servers N] [--each N]
"""

import argparse
import os
import re
import shutil
import subprocess
import sys
import tempfile
import time

sys.path.insert(0, os.path.join(os.path.dirname(os.path.abspath(__file__)), "../tools"))

from fleet import Engine, Fleet
from server import Client, fail, wozhinnam

TICK = os.sysconf("SC_CLK_TCK")

PUT = """
local threads, at = 0, 0
local filler = string.rep("0123456789abcdef", math.ceil(SIZE / 16))
function setup(thread) threads = threads + 1 thread:set("id", threads) end
function request()
  at = at + 1
  local head = string.format("%s-%d-%d-", SEED, id, at)
  return wrk.format("PUT", "/uri", {}, head .. filler:sub(1, SIZE - #head))
end
"""

GET = """
local threads, at, caps = 0, 0, {}
function setup(thread) threads = threads + 1 thread:set("id", threads) end
function init(args)
  for line in io.lines(CAPS) do caps[#caps + 1] = wrk.format("GET", "/uri/" .. line) end
  at = (id * 7919) % #caps
end
function request() at = at % #caps + 1 return caps[at] end
"""


def processor_time(processes):
    total = 0
    for process in processes:
        with open("/proc/%d/stat" % process.pid) as stat:
            fields = stat.read().rsplit(")", 1)[1].split()
        total += int(fields[11]) + int(fields[12])
    return total / TICK


def milliseconds(text, name):
    value, unit = re.search(name + r"\s+([0-9.]+)(us|ms|s|m)", text).groups()
    return float(value) * {"us": 0.001, "ms": 1, "s": 1000, "m": 60000}[unit]


def load(script, port, connections, seconds, folder):
    path = os.path.join(folder, "load.lua")
    with open(path, "w") as text:
        text.write(script)
    text = subprocess.run(["wrk", "-t1", "-c%d" % connections, "-d%ds" % seconds, "--latency", "--timeout", "30s", "-s", path,
                           "http://127.0.0.1:%d" % port], capture_output=True, text=True).stdout
    wrong = re.search(r"Non-2xx or 3xx responses: (\d+)", text)
    return text, int(wrong.group(1)) if wrong else 0


def measured(label, script, fleet, engines, options, folder):
    groups = [[gate.process for gate in fleet.gates], [engine.process for engine in engines], [fleet.front.process]]
    before = [processor_time(group) for group in groups]
    text, wrong = load(script, fleet.front.port, options.each * len(fleet.gates), options.seconds, folder)
    spent = [processor_time(group) - was for group, was in zip(groups, before)]
    done = max(int(re.search(r"(\d+) requests in", text).group(1)), 1)
    rate = float(re.search(r"Requests/sec:\s+([0-9.]+)", text).group(1))
    print("%-34s %9.1f/s  median %8.2f ms  99%% %8.2f ms  processor time a request: gateways %7.3f ms, Redis %7.3f ms, HAProxy %6.3f ms%s" % (
        (label, rate, milliseconds(text, "50%"), milliseconds(text, "99%")) + tuple(1000 * one / done for one in spent)
        + ("  NOT 200: %d" % wrong if wrong else "",)), flush=True)
    return rate


def put_some(address, count, size, path):
    client = Client(address)
    with open(path, "w") as caps:
        for _ in range(count):
            status, cap = client.put(os.urandom(32) + bytes(size - 32))
            if status != 200:
                fail("a put is answered %d %s" % (status, cap))
            caps.write(cap + "\n")
    client.close()


def one_get(address, cap):
    client = Client(address)
    began = time.monotonic()
    status, _ = client.get(cap)
    took = time.monotonic() - began
    client.close()
    return took if status == 200 else fail("a get is answered %d" % status)


def cold(options, engines, fleet, caps):
    """A start over what stands, and the first get from a gateway that has just started, beside one from a gateway in memory."""
    began = time.monotonic()
    fleet.gates[0].kill()
    fleet.start(0)
    print("a start over all that stands: %.0f ms" % (1000 * (time.monotonic() - began)))
    memory = wozhinnam(options.program, "--shares", "3,10")
    client = Client(memory.address)
    kept = [client.put(os.urandom(32) + bytes(4_194_304 - 32))[1] for _ in range(len(caps))]
    shared = min(one_get(fleet.addresses()[0], cap) for cap in caps)
    alone = min(one_get(memory.address, cap) for cap in kept)
    memory.kill()
    print("a get of 4 MiB from a gateway that has just started: %.1f ms; from memory: %.1f ms; %.2f times" % (1000 * shared, 1000 * alone, shared / alone))


def main():
    parser = argparse.ArgumentParser()
    parser.add_argument("program")
    parser.add_argument("--gates", default="1,2,4")
    parser.add_argument("--sizes", default="4194304,10000")
    parser.add_argument("--seconds", type=int, default=8)
    parser.add_argument("--servers", type=int, default=5)
    parser.add_argument("--each", type=int, default=4, help="connections of the load for each gateway")
    options = parser.parse_args()
    folder = tempfile.mkdtemp()
    for size in map(int, options.sizes.split(",")):
        first = {}
        for count in map(int, options.gates.split(",")):
            place = os.path.join(folder, "%d-%d" % (size, count))
            os.mkdir(place)
            engines = [Engine(os.path.join(place, "r%d" % at), durable=False) for at in range(options.servers)]
            for engine in engines:
                engine.start()
            fleet = Fleet(options.program, engines, count, place)
            label = "%d gateways, %d bytes" % (count, size)
            put = measured("put " + label, 'SIZE, SEED = %d, "%d"\n' % (size, time.time_ns()) + PUT, fleet, engines, options, place)
            for engine in engines:
                engine.empty()
            caps = os.path.join(place, "caps")
            put_some(fleet.front.address, 60 if size > 100_000 else 2000, size, caps)
            get = measured("get " + label, 'CAPS = "%s"\n' % caps + GET, fleet, engines, options, place)
            first = first or {"put": put, "get": get}
            print("%-34s puts %.2f, gets %.2f times those of the first row" % ("", put / first["put"], get / first["get"]), flush=True)
            if size == 4_194_304 and count == 1:
                with open(caps) as lines:
                    cold(options, engines, fleet, [line.strip() for line in lines][:20])
            fleet.end()
            for engine in engines:
                engine.end()
    shutil.rmtree(folder)


if __name__ == "__main__":
    main()
