#!/usr/bin/env python3
"""A caller of the store with impacket (Debian: python3-impacket): it appends to a file through a cursor, reads it through
another one, and asks for its size through a view.

usage: store_impacket.py HOST PORT
"""
import sys

from impacket.dcerpc.v5 import transport
from impacket.dcerpc.v5.dtypes import ULONG
from impacket.dcerpc.v5.ndr import NDRCALL, NDRHYPER, NDRSTRUCT, NDRUniConformantArray, NDRUniConformantVaryingArray
from impacket.dcerpc.v5.rpcrt import DCERPCException
from impacket.uuid import uuidtup_to_bin

STORE = uuidtup_to_bin(("9b1d3c7e-52f4-4a0b-8e6d-1f0c2a3b4d5e", "1.0"))


class HANDLE(NDRSTRUCT):
    """A context handle: attributes and an identifier."""

    structure = (("attributes", "<L=0"), ("identifier", '16s=b""'))


class BYTES(NDRUniConformantArray):
    item = "c"


class STRING(NDRUniConformantVaryingArray):
    item = "c"


class Open(NDRCALL):
    opnum = 0
    structure = (("name", STRING),)


class OpenResponse(NDRCALL):
    structure = (("cursor", HANDLE), ("result", ULONG))


class Append(NDRCALL):
    opnum = 1
    structure = (("cursor", HANDLE), ("n", ULONG), ("d", BYTES))


class AppendResponse(NDRCALL):
    structure = (("cursor", HANDLE), ("result", ULONG))


class Read(NDRCALL):
    opnum = 2
    structure = (("cursor", HANDLE), ("max", ULONG))


class ReadResponse(NDRCALL):
    structure = (("cursor", HANDLE), ("n", ULONG), ("d", STRING), ("result", ULONG))


class Close(NDRCALL):
    opnum = 3
    structure = (("cursor", HANDLE),)


class CloseResponse(NDRCALL):
    structure = (("cursor", HANDLE), ("result", ULONG))


class View(NDRCALL):
    opnum = 4
    structure = (("cursor", HANDLE),)


class ViewResponse(NDRCALL):
    structure = (("view", HANDLE), ("result", ULONG))


class Size(NDRCALL):
    opnum = 5
    structure = (("view", HANDLE),)


class SizeResponse(NDRCALL):
    structure = (("size", NDRHYPER), ("result", ULONG))


def call(dce, request, **fields):
    """Makes a call with these fields, and answers its response."""
    for name, value in fields.items():
        request[name] = value
    return dce.request(request)


def octets(array):
    return b"".join(array)


def main(host, port):
    dce = transport.DCERPCTransportFactory(f"ncacn_ip_tcp:{host}[{port}]").get_dce_rpc()
    dce.connect()
    dce.bind(STORE)
    print("bound to the store")

    name = [b"n", b"o", b"t", b"e", b"\0"]
    writer = call(dce, Open(), name=name)["cursor"]
    for text in (b"abc", b"de"):
        said = call(dce, Append(), cursor=writer, n=len(text), d=[bytes([it]) for it in text])
        print(f"store_append {text.decode()}: result {said['result']}")

    reader = call(dce, Open(), name=name)["cursor"]
    said = call(dce, Read(), cursor=reader, max=16)
    print(f"store_read: {said['n']} octets, {octets(said['d']).decode()}, result {said['result']}")

    view = call(dce, View(), cursor=reader)["view"]
    print(f"store_size: {call(dce, Size(), view=view)['size']}")

    said = call(dce, Close(), cursor=reader)
    print(f"store_close: the cursor is {'null' if said['cursor']['identifier'] == bytes(16) else 'kept'}, result {said['result']}")
    try:
        call(dce, Close(), cursor=reader)
    except DCERPCException as error:
        # (some versions of impacket put more words in front of the status)
        print(f"store_close of the same cursor: {str(error).split()[-1]}")
    dce.disconnect()


if __name__ == "__main__":
    if len(sys.argv) != 3:
        sys.exit(__doc__.strip())
    main(*sys.argv[1:])
