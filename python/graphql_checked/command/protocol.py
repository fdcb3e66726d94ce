"""Messages of the Language Server Protocol over standard input and output."""

import json
import queue
import threading
from typing import Any, BinaryIO, Dict, Optional

Message = Dict[str, Any]
PARSE_ERROR, INVALID_REQUEST, NO_METHOD, FAILED = -32700, -32600, -32601, -32803


def read_message(stream: BinaryIO) -> Optional[Message]:
    """The next message; None at the end. Raises ValueError for one that is no JSON object."""
    length = -1
    while True:
        line = stream.readline()
        if not line:
            return None
        if not line.strip():
            break
        name, _, value = line.decode("ascii", "replace").partition(":")
        if name.strip().lower() == "content-length":
            length = int(value)
    if length < 0:
        raise ValueError("a message has no Content-Length")
    told = json.loads(stream.read(length).decode("utf-8"))
    if not isinstance(told, dict):
        raise ValueError("a message is to be an object")
    return told


class Connection:
    """Both streams. A thread reads, so that it is known whether more has come."""

    def __init__(self, incoming: BinaryIO, outgoing: BinaryIO) -> None:
        self.incoming, self.outgoing = incoming, outgoing
        self.messages: "queue.Queue[Optional[Message]]" = queue.Queue()
        threading.Thread(target=self._read, daemon=True).start()

    def _read(self) -> None:
        while True:
            try:
                message = read_message(self.incoming)
            except (ValueError, OSError):
                message = None
            self.messages.put(message)
            if message is None or message.get("method") == "exit":
                return

    def next(self, seconds: Optional[float]) -> Optional[Message]:
        """The next message; None at the end. Raises queue.Empty where none comes in so many seconds."""
        return self.messages.get(timeout=seconds)

    def send(self, message: Message) -> None:
        """Sends a message."""
        data = json.dumps({"jsonrpc": "2.0", **message}, ensure_ascii=False, separators=(",", ":")).encode("utf-8")
        self.outgoing.write(b"Content-Length: %d\r\n\r\n" % len(data) + data)
        self.outgoing.flush()

    def notify(self, method: str, params: Any) -> None:
        """Sends a notification."""
        self.send({"method": method, "params": params})
