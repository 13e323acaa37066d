"""Times zfec on a body of 4 MiB at 3 of 10: `peer_zfec.py TURNS` prints the least microseconds of that many turns, as
gate_bench does: `encode`, of seven secondary blocks, and `decode`, from the last three."""

import sys
import time

import zfec

BLOCK = 1_398_102


def microseconds(call):
    before = time.perf_counter_ns()
    value = call()
    return (time.perf_counter_ns() - before) // 1000, value


def main():
    turns = int(sys.argv[1])
    primary = [bytes([turns % 251 + j]) * BLOCK for j in range(3)]
    encoder = zfec.Encoder(3, 10)
    decoder = zfec.Decoder(3, 10)
    encode, decode = [], []
    for _ in range(turns):
        took, secondary = microseconds(lambda: encoder.encode(primary, list(range(3, 10))))
        encode.append(took)
        took, decoded = microseconds(lambda: decoder.decode(secondary[-3:], [7, 8, 9]))
        decode.append(took)
        assert decoded == primary
    print("encode", min(encode))
    print("decode", min(decode))


main()
