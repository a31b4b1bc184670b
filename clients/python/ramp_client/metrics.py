"""The sizes of a server, read from its metrics: those of `ramp serve --status PORT`."""
from __future__ import annotations

import re
from typing import Any, Optional

from .policy import Options

HINT = "not known: a session has no line for them; where the server runs with --status PORT, ramp-cli --status PORT reads them"
MOST_BYTES = 1 << 22
_LINE = re.compile(r'^(ramp_\w+?)(?:\{(.*)\})? (\S+)$', re.MULTILINE)
_LABEL = re.compile(r'(\w+)="([^"]*)"')


class Sizes:
    """Reads the metrics at a port of the server's host; None where it is not known."""

    def __init__(self, port: Optional[int] = None):
        self._port = port

    def read(self, options: Options) -> dict[str, Any]:
        """The fields of `sizes_of`, or `sizes` alone, a sentence that says why they are not known."""
        if self._port is None:
            return {"sizes": HINT}
        try:
            return sizes_of(self._fetched(options), options.tenant)
        except OSError as error:
            return {"sizes": f"not known: no metrics at {options.host}, port {self._port}: {error}"}

    def _fetched(self, options: Options) -> str:
        """The text of the metrics. `OSError` where there is none."""
        import http.client  # which takes long to load, and few commands need it

        connection = http.client.HTTPConnection(options.host, self._port, timeout=options.timeout)
        try:
            connection.request("GET", "/metrics")
            answer = connection.getresponse()
            if answer.status != 200:
                raise OSError(f"status {answer.status}")
            return answer.read(MOST_BYTES).decode("utf-8", "replace")
        except http.client.HTTPException as error:
            raise OSError(f"{type(error).__name__}: {error}") from None
        finally:
            connection.close()


def sizes_of(text: str, tenant: str) -> dict[str, Any]:
    """The version, the number of partitions, and of each size what is used, its limit, and the fullest partition where partitions have it."""
    values: dict[str, dict[str, int]] = {}
    told: dict[str, Any] = {}
    for name, labels, value in _LINE.findall(text):
        label = dict(_LABEL.findall(labels))
        if name == "ramp_build_info":
            told["version"] = label.get("version", "")
        elif label.get("tenant", tenant) == tenant:
            values.setdefault(name, {})[label.get("partition", "")] = int(float(value))
    if "ramp_items" in values:
        told["partitions"] = len(values["ramp_items"])
    for size in ("items", "versions", "clients", "connections"):
        used, most = values.get(f"ramp_{size}"), values.get(f"ramp_{size}_limit")
        if used and most:
            fullest = max(used, key=lambda place: used[place])
            told[size] = {"used": used[fullest], "limit": most.get(fullest, 0), **({"partition": int(fullest)} if fullest else {})}
    return told


def size_words(size: Any) -> str:
    """A size as `7 of 256`."""
    if not isinstance(size, dict):
        return str(size)
    return f"{size['used']} of {size['limit']}" + (f", in partition {size['partition']}, the fullest" if "partition" in size else "")
