#!/usr/bin/env python3
"""What a client of impacket (Debian: python3-impacket) finds beside calls: the endpoint map, management, further contexts of a
connection, small fragments, and how authentication, other transfer syntaxes and a second bind are refused.

usage: tour_impacket.py HOST PORT
"""
import struct
import sys

from impacket.dcerpc.v5 import epm, mgmt, transport
from impacket.dcerpc.v5.rpcrt import (
    RPC_C_AUTHN_LEVEL_CONNECT,
    RPC_C_AUTHN_LEVEL_PKT_PRIVACY,
    RPC_C_AUTHN_WINNT,
    DCERPCException,
)
from impacket.uuid import bin_to_string, uuidtup_to_bin

PROBE = uuidtup_to_bin(("5f0c7a12-3b4d-4e6f-8a90-b1c2d3e4f506", "1.0"))
STORE = uuidtup_to_bin(("9b1d3c7e-52f4-4a0b-8e6d-1f0c2a3b4d5e", "1.0"))
OTHER = uuidtup_to_bin(("11111111-2222-3333-4444-555566667777", "1.0"))
NDR64 = ("71710533-beba-4937-8319-b5dbef9ccc36", "1.0")
NAME = struct.pack("<III", 2, 0, 2) + b"a\0"
PROBE_OPEN, STORE_OPEN, STORE_APPEND = 0, 0, 1


def connected():
    dce = transport.DCERPCTransportFactory(f"ncacn_ip_tcp:{host}[{port}]").get_dce_rpc()
    dce.connect()
    return dce


def answer(dce, operation, stub, **words):
    dce.call(operation, stub, **words)
    return dce.recv()


def told(what):
    """Does something, and says what came of it. Its connections are closed."""

    def of(does):
        dce = connected()
        try:
            came = does(dce)
        except DCERPCException as error:
            # (some versions of impacket put more words in front, or behind)
            came = "refused: " + str(error).split("(")[0].split("code: ")[-1].strip()
        finally:
            dce.disconnect()
        print(f"{what}:{came}" if came.startswith("\n") else f"{what}: {came}")

    return of


def entries(dce):
    # (this function binds by itself)
    for it in epm.hept_lookup(None, dce=dce):
        floors = it["tower"]["Floors"]
        at = epm.PrintStringBinding(floors).replace(f"[{port}]", "[PORT]")
        yield f"{bin_to_string(floors[0]['InterfaceUUID']).lower()} at {at}"


def main():
    @told("the endpoint map")
    def _(dce):
        return "".join("\n  " + it for it in entries(dce))

    @told("where the probe is")
    def _(dce):
        return epm.hept_map(host, PROBE, protocol="ncacn_ip_tcp", dce=dce).replace(f"[{port}]", "[PORT]")

    @told("where another interface is")
    def _(dce):
        return epm.hept_map(host, OTHER, protocol="ncacn_ip_tcp", dce=dce)

    @told("management, the interfaces")
    def _(dce):
        dce.bind(mgmt.MSRPC_UUID_MGMT)
        ids = mgmt.hinq_if_ids(dce)["if_id_vector"]["if_id"]
        return "".join("\n  " + bin_to_string(it["Data"].getData()).lower() for it in ids)

    @told("management, whether the server listens")
    def _(dce):
        dce.bind(mgmt.MSRPC_UUID_MGMT)
        return f"status {mgmt.his_server_listening(dce)['status']}"

    @told("management, the principal's name")
    def _(dce):
        dce.bind(mgmt.MSRPC_UUID_MGMT)
        return mgmt.hinq_princ_name(dce, 0, 100)["status"]

    @told("management, a stop")
    def _(dce):
        dce.bind(mgmt.MSRPC_UUID_MGMT)
        return mgmt.hstop_server_listening(dce)["status"]

    @told("a further context, by alter_context")
    def _(dce):
        dce.bind(PROBE)
        store = dce.alter_ctx(STORE)
        first, second = answer(dce, PROBE_OPEN, struct.pack("<I", 5)), answer(store, STORE_OPEN, NAME)
        return f"handles {first[19]} and {second[19]} of one group"

    @told("1,000 octets in fragments of 64")
    def _(dce):
        dce.bind(STORE)
        cursor = answer(dce, STORE_OPEN, NAME)[:20]
        dce.set_max_fragment_size(64)
        return f"result {answer(dce, STORE_APPEND, cursor + struct.pack('<II', 1000, 1000) + bytes(1000))[20]}"

    @told("a call with an object")
    def _(dce):
        dce.bind(PROBE)
        return f"result {answer(dce, PROBE_OPEN, struct.pack('<I', 5), uuid=b'o' * 16)[20]}"

    @told("an operation that isn't there")
    def _(dce):
        dce.bind(PROBE)
        return answer(dce, 9, b"")

    @told("octets that are no stub")
    def _(dce):
        dce.bind(PROBE)
        return answer(dce, PROBE_OPEN, b"\1")

    @told("another interface")
    def _(dce):
        return dce.bind(OTHER)

    @told("NDR64")
    def _(dce):
        return dce.bind(PROBE, transfer_syntax=NDR64)

    @told("a second bind")
    def _(dce):
        dce.bind(PROBE)
        return dce.bind(STORE)

    for level, name in ((RPC_C_AUTHN_LEVEL_CONNECT, "NTLM to connect"), (RPC_C_AUTHN_LEVEL_PKT_PRIVACY, "NTLM with privacy")):

        @told(name)
        def _(dce, level=level):
            dce.set_credentials("user", "password")
            dce.set_auth_type(RPC_C_AUTHN_WINNT)
            dce.set_auth_level(level)
            return dce.bind(PROBE)


if __name__ == "__main__":
    if len(sys.argv) != 3:
        sys.exit(__doc__.strip())
    host, port = sys.argv[1:]
    main()
