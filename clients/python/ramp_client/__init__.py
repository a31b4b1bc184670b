"""A client of `ramp serve` for Python 3.9 and later, with the standard library alone.

    import ramp_client

    with ramp_client.connect("ramp://127.0.0.1:7000/t") as client:
        client.put({"stock": "7", "sold": "1"}, tag="shop")    # both or none
        items = client.get("stock", "sold")                    # all of a write, or none of it
        print(items["stock"].value, list(client.find("shop")))

`put_text`, `put_json` and `put_bytes` write what a value can't hold: spaces, other letters, and more than 128 bytes. `Pool` is for threads, `AsyncClient` and
`AsyncPool` are for asyncio. `codec` has the encodings. `ramp-cli`, or `python3 -m ramp_client`, is a prompt."""
from . import codec
from .aio import AsyncCalls, AsyncClient, AsyncPipeline, AsyncPool
from .client import Calls, Client, Pending, Pipeline, Pool, connect
from .errors import (REFUSALS, CannotConnect, Closed, ConnectionLost, FalseAnswer, InUse, Invalid, Lost, NewStore, NoAnswer, NoRoom, NotWhole, OutcomeUnknown, RampError,
                     Refused, RefusedNow, RefusedRoom, RefusedUse, Restarted, Torn, TrustNothing, TryAgain, WrongUse)
from .lines import Item, ServerInfo
from .policy import Options, Retry, read_url

__version__ = "0.3.0"

__all__ = [
    "REFUSALS", "AsyncCalls", "AsyncClient", "AsyncPipeline", "AsyncPool", "Calls", "CannotConnect", "Client", "Closed", "ConnectionLost", "FalseAnswer", "InUse", "Invalid", "Item", "Lost",
    "NewStore", "NoAnswer", "NoRoom", "NotWhole", "Options", "OutcomeUnknown", "Pending", "Pipeline", "Pool", "RampError", "Refused", "RefusedNow", "RefusedRoom",
    "RefusedUse", "Restarted", "Retry", "ServerInfo", "Torn", "TrustNothing", "TryAgain", "WrongUse", "codec", "connect", "read_url",
]
