#!/usr/bin/env bash
# Tries deploy/haproxy.cfg on loopback: two servers, 20 devices with three connections each; no device may be on both.
# Usage: deploy/try_haproxy.sh FMB  (FMB is the built program; HAProxy has to be installed)
set -euo pipefail
fmb=$(realpath "${1:?the built program, crates/fmb_program/out/fmb_program}")
command -v haproxy >/dev/null || { echo "haproxy is not installed" >&2; exit 1; }
here=$(cd "$(dirname "$0")" && pwd)
dir=$(mktemp -d)
trap 'kill $(jobs -p) 2>/dev/null; rm -rf "$dir"' EXIT
for n in 0 1; do
    "$fmb" serve "127.0.0.1:510$n" "$dir/archive$n" --workers 4 --sessions 1000 >"$dir/served$n" 2>"$dir/log$n" &
done
haproxy -f "$here/haproxy.cfg" &
sleep 1
python3 - "$dir" <<'PY'
import socket, struct, sys

def crc(data):
    c = 0
    for b in data:
        c ^= b
        for _ in range(8):
            c = (c >> 1) ^ 0xA001 if c & 1 else c >> 1
    return c

def send(imei, time):
    body = bytes([8, 1]) + struct.pack(">Q", time) + bytes(22) + bytes([1])
    with socket.create_connection(("127.0.0.1", 5027)) as s:
        s.sendall(struct.pack(">H", 15) + str(imei).encode())
        assert s.recv(1) == b"\x01"
        s.sendall(struct.pack(">II", 0, len(body)) + body + struct.pack(">I", crc(body)))
        assert s.recv(4) == struct.pack(">I", 1)

devices = [350000000000001 + n for n in range(20)]
for turn in range(3):
    for imei in devices:
        send(imei, 1560000000000 + turn)
found = [{imei for imei in devices if struct.pack(">Q", imei) in open(f"{sys.argv[1]}/archive{n}", "rb").read()} for n in (0, 1)]
assert found[0] | found[1] == set(devices) and not found[0] & found[1], found
print(f"{len(found[0])} devices on one server, {len(found[1])} on the other, none on both")
PY
