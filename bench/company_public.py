"""The public proxy of bench/company.py: an nginx of its own.

It listens over TLS for nginx, and plain for those who ask it themselves.
"""

import os
import shutil
import subprocess

from shared import ROOT

from lib.ports import free_port, wait_for

NAME, AUTHORITIES = "proxy.golang.org", "/etc/ssl/certs/ca-certificates.crt"
CERTIFICATE = f"openssl req -x509 -newkey rsa:2048 -nodes -days 2 -subj /CN={NAME} -addext subjectAltName=DNS:{NAME}"
CONF = """
daemon off; worker_processes 1; pid {folder}/pid; error_log {folder}/errors crit; worker_rlimit_nofile 16384;
events {{ worker_connections 4096; }}
http {{
    client_body_temp_path {folder}/body; proxy_temp_path {folder}/proxy; fastcgi_temp_path {folder}/fastcgi;
    uwsgi_temp_path {folder}/uwsgi; scgi_temp_path {folder}/scgi; keepalive_requests 100000; access_log off;
    server {{
        listen 127.0.0.1:{plain} backlog=4096;
        listen 127.0.0.1:{tls} ssl;
        ssl_certificate {folder}/cert.pem;
        ssl_certificate_key {folder}/key.pem;
        default_type application/zip;
        location ~ zip$ {{ root {folder}; try_files /zip =404; }}
        location / {{ default_type text/plain; return 200 "module public.example\\n"; }}
    }}
}}
"""
# GOPROXY with the public proxy behind, as goshelf or nginx answers 404 for its modules; and the one URL
BEHIND, SECOND, ONE = WAYS = ("404 of goshelf", "404 of nginx", "one URL")


class Outside:
    """The public proxy. Each of its modules has the same go.mod and the same zip."""

    def __init__(self, folder: str, length: int) -> None:
        self.folder, self.plain, self.tls = folder, free_port(), free_port()
        self.way = f"127.0.0.1:{free_port()}"
        words = [*CERTIFICATE.split(), "-out", f"{folder}/cert.pem", "-keyout", f"{folder}/key.pem"]
        subprocess.run(words, check=True, capture_output=True)
        with open(f"{folder}/zip", "wb") as file:
            file.write(os.urandom(length))
        with open(f"{folder}/nginx.conf", "w", encoding="utf-8") as file:
            file.write(CONF.format(folder=folder, plain=self.plain, tls=self.tls))
        for name in (folder, f"{folder}/zip"):
            os.chmod(name, 0o755)
        command = shutil.which("nginx") or "/usr/sbin/nginx"
        self.child = subprocess.Popen([command, "-c", f"{folder}/nginx.conf", "-e", f"{folder}/start.log"])
        wait_for(self.plain)

    def stop(self) -> None:
        self.child.terminate()
        self.child.wait()


def files(folder: str, outside: Outside | None) -> dict[str, str]:
    """The files of deploy/nginx beside goshelf.conf."""
    found = {}
    for name in ("errors.conf", "goshelf.js", "locations.conf", "page.conf", "public.conf", "stream.conf"):
        with open(os.path.join(ROOT, "deploy", "nginx", name), encoding="utf-8") as file:
            lines = [line for line in file.read().split("\n") if not line.lstrip().startswith("limit_")]
        text = "\n".join(lines).replace("/etc/nginx/goshelf/", f"{folder}/")
        if outside:
            text = text.replace(AUTHORITIES, f"{outside.folder}/cert.pem").replace("127.0.0.1:8444", outside.way)
            text = text.replace(f"{NAME}:443", f"127.0.0.1:{outside.tls}")
        found[name] = text.replace("127.0.0.1:8444", f"127.0.0.1:{free_port()}")
    return found
