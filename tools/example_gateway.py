"""The gateway of examples/service/gateway.conf over plain HTTP at a port of loopback, for the tools that ask through it."""

import os
import pathlib
import re
import shutil
import socket
import time

TOP = pathlib.Path(__file__).resolve().parent.parent


def nginx():
    """The program, where it is there."""
    return shutil.which("nginx", path=f"{os.environ['PATH']}:/usr/sbin")


def settings(folder, inner, outer, names):
    """Writes the example's settings into a folder, with these names and the password `secret`; the words that nginx is given. The
    server is at the inner port, or at a socket of that path, and nginx at the outer port."""
    text = (TOP / "examples/service/gateway.conf").read_text(encoding="utf-8")
    text = re.sub(r"^ *ssl_.*\n", "", text, flags=re.M).replace("listen 443 ssl", f"listen 127.0.0.1:{outer}")
    server = f"127.0.0.1:{inner}" if isinstance(inner, int) else f"unix:{inner}"
    text = text.replace("unix:/run/book_desk/socket", server).replace("/etc/book_desk/passwords", f"{folder}/passwords")
    pathlib.Path(folder, "passwords").write_text("".join(f"{name}:{{PLAIN}}secret\n" for name in names))
    places = "".join(f"{kind}_temp_path {folder}/{kind};\n" for kind in ("client_body", "proxy", "fastcgi", "uwsgi", "scgi"))
    top = f"daemon off;\npid {folder}/pid;\nerror_log {folder}/log;\nevents {{}}\n"
    pathlib.Path(folder, "nginx.conf").write_text(f"{top}http {{\naccess_log off;\n{places}{text}}}\n")
    return ["-e", f"{folder}/log", "-c", f"{folder}/nginx.conf"]


def free_port():
    with socket.socket() as one:
        one.bind(("127.0.0.1", 0))
        return one.getsockname()[1]


def await_port(port):
    """Waits for twenty seconds at most until somebody listens."""
    for _ in range(400):
        with socket.socket() as one:
            if one.connect_ex(("127.0.0.1", port)) == 0:
                return
        time.sleep(0.05)
