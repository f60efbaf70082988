#!/usr/bin/python3
"""An engine for Python expressions: examples/engine.py HOST PORT UUID KEY. It needs pyzmq (Debian's python3-zmq)."""
import datetime
import hmac
import json
import os
import sys

import zmq

host, port, uuid, key = sys.argv[1:]
link = zmq.Context().socket(zmq.DEALER)
link.connect(f"tcp://{host}:{int(port) + 3}")


def signature(*parts):
    return hmac.new(key.encode(), b"".join(parts), "sha256").hexdigest().encode()


def send(msg_type, parent, content):
    header = {"msg_id": os.urandom(16).hex(), "session": uuid, "username": uuid, "msg_type": msg_type, "version": "5.3",
              "date": datetime.datetime.now(datetime.timezone.utc).isoformat()}
    parts = [json.dumps(header).encode(), parent, b"{}", json.dumps(content).encode()]
    link.send_multipart([b"<IDS|MSG>", signature(*parts), *parts])


send("registration_request", b"{}", {"uuid": uuid})
while True:
    _, tag, header, parent, metadata, content, *buffers = link.recv_multipart()
    msg_type, asked = json.loads(header)["msg_type"], json.loads(content)
    if not hmac.compare_digest(tag, signature(header, parent, metadata, content)) or asked.get("status") == "error":
        sys.exit(f"not served: {asked}")
    answer = msg_type.replace("_request", "_reply")
    if msg_type == "beat_request":
        send(answer, header, asked)
    elif answer != msg_type:
        try:
            send(answer, header, {"status": "ok", "result": repr(eval(asked["code"], {}))})
        except Exception as error:
            send(answer, header, {"status": "error", "ename": type(error).__name__, "evalue": str(error), "traceback": []})
