"""nginx(8) and haproxy(1) as reverse proxies in front of a server, for the scripts that try one."""

import pathlib
import re
import socket
import subprocess
import tempfile
import time

from databases import fail
from serving import SECONDS, free_port

CONFIGURATION = """\
daemon off;
master_process off;
pid {folder}/pid;
error_log {folder}/errors;
events {{}}
http {{
    access_log off;
    client_body_temp_path {folder}/bodies;
    proxy_temp_path {folder}/replies;
    fastcgi_temp_path {folder}/unused;
    uwsgi_temp_path {folder}/unused;
    scgi_temp_path {folder}/unused;
    {block}
}}
"""
BLOCK = """\
upstream desk {{
    server 127.0.0.1:{server};
    {upstream}
}}
server {{
    listen 127.0.0.1:{port};
    location / {{
        proxy_pass http://desk;
        {location}
    }}
}}
"""
KEEPING = ("keepalive 1;", 'proxy_http_version 1.1; proxy_set_header Connection "";')


EXAMPLES = pathlib.Path(__file__).resolve().parent.parent / "examples"


class Child:
    """A process of a proxy, in a folder of its own, on a free port."""

    def __init__(self, name):
        self.name, self.port = name, free_port()
        self.room = tempfile.TemporaryDirectory()
        self.folder = pathlib.Path(self.room.name)
        self.errors = self.folder / "errors"

    def begin(self, *words):
        """Starts the process, and waits until it listens. (A connection on which nothing is sent makes none to the server.)"""
        with open(self.errors, "wb") as errors:
            self.child = subprocess.Popen([*map(str, words)], stdin=subprocess.DEVNULL, stdout=errors, stderr=errors)
        for _ in range(100):
            with socket.socket() as trial:
                if trial.connect_ex(("127.0.0.1", self.port)) == 0:
                    return
            time.sleep(0.1)
        self.end()
        fail(f"{self.name} does not listen: {self.errors.read_text()}")

    def end(self):
        """Ends the process, and with it its connections to the server."""
        if self.child.poll() is None:
            self.child.terminate()
        self.child.wait(SECONDS)

    def __enter__(self):
        return self

    def __exit__(self, *_):
        self.end()
        self.room.cleanup()


class Proxy(Child):
    """nginx with one kept connection to a server, or one for each request."""

    def __init__(self, server, keeps):
        super().__init__("nginx")
        upstream, location = KEEPING if keeps else ("", "")
        block = BLOCK.format(server=server, port=self.port, upstream=upstream, location=location)
        self.begin_with(block)

    def begin_with(self, block):
        """Starts with what `http` has."""
        (self.folder / "nginx.conf").write_text(CONFIGURATION.format(folder=self.folder, block=block))
        self.begin("nginx", "-p", self.folder, "-e", self.errors, "-c", self.folder / "nginx.conf")


class Nginx(Proxy):
    """nginx as it is documented, but for TLS, who may ask, and how often."""

    def __init__(self, server):
        Child.__init__(self, "nginx")
        block = (EXAMPLES / "nginx.conf").read_text()
        block = re.sub(r"(?m)^ *(ssl_|allow|deny|auth_).*\n", "", block)
        block = block.replace("listen 443 ssl", f"listen 127.0.0.1:{self.port}").replace("rate=20r/s", "rate=1000r/s")
        self.begin_with(block.replace("127.0.0.1:8049", f"127.0.0.1:{server}"))


class Haproxy(Child):
    """haproxy as it is documented, but for TLS and who may ask."""

    def __init__(self, server):
        super().__init__("haproxy")
        text = (EXAMPLES / "haproxy.cfg").read_text()
        text = re.sub(r"(?m)^ *http-request deny unless .*\n", "", text)
        text = re.sub(r"(?m)^( *bind ).*$", rf"\g<1>127.0.0.1:{self.port}", text)
        (self.folder / "haproxy.cfg").write_text(text.replace("127.0.0.1:8049", f"127.0.0.1:{server}"))
        self.begin("haproxy", "-db", "-f", self.folder / "haproxy.cfg")
