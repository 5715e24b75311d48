"""Runs nginx as a file of docs/serving has it, before a served registry, for the benchmarks beside this file: on another
port, with certificates of its own. It needs nginx and openssl."""
import multiprocessing
import os
import re
import socket
import ssl
import subprocess
import time

from serving import Answers, free_port

SERVING = os.path.join(os.path.dirname(os.path.dirname(os.path.abspath(__file__))), "docs/serving")
CURVE = ["-newkey", "ec", "-pkeyopt", "ec_paramgen_curve:P-256", "-nodes"]
# nginx closes a connection after so many messages; a client opens another before
MESSAGES = 900


class FrontEnd:
    """nginx before the registry on a port. The client's certificate is that of `uni/ann`; another is Carl's, whose
    organisation has the text of Ann's name in its own, and one is Dora's, an auditor. Where standbys serve on two ports, the
    lines of the configuration that name such are no comments. `changes` are further texts of it, each with what replaces it."""

    def __init__(self, folder, registry=None, standbys=(), config="nginx.conf", changes=()):
        self.port = free_port()
        self.folder = os.path.join(folder, "front-%d" % self.port)
        os.makedirs(self.folder)
        # its workers may be another user
        for place in (folder, self.folder):
            os.chmod(place, 0o755)
        self.certificates()
        self.configure(config, dict(zip((8080, 8081, 8082), (registry, *standbys))), changes)
        self.process = subprocess.Popen(["nginx", "-p", self.folder, "-c", self.folder + "/nginx.conf", "-e", "error.log"])
        while True:
            try:
                self.connect().close()
                return
            except OSError:
                if self.process.poll() is not None:
                    raise SystemExit("nginx ended with status %d" % self.process.returncode)
                time.sleep(0.05)

    def openssl(self, *words):
        subprocess.run(["openssl", *words], cwd=self.folder, check=True, stderr=subprocess.DEVNULL)

    def certificates(self):
        self.openssl("req", "-x509", *CURVE, "-subj", "/CN=localhost", "-addext", "subjectAltName=DNS:localhost",
                     "-keyout", "server.key", "-out", "server.pem")
        self.openssl("req", "-x509", *CURVE, "-subj", "/CN=Trial authority", "-keyout", "clients.key", "-out", "clients.pem")
        self.client_certificate("ann", "/CN=ann")
        self.client_certificate("carl", "/CN=carl/O=Some,CN=ann")
        self.client_certificate("dora", "/CN=dora")

    def client_certificate(self, name, subject):
        self.openssl("req", *CURVE, "-subj", subject, "-keyout", name + ".key", "-out", name + ".csr")
        self.openssl("x509", "-req", "-in", name + ".csr", "-CA", "clients.pem", "-CAkey", "clients.key", "-CAcreateserial",
                     "-out", name + ".pem")

    def configure(self, config, ports, changes):
        with open(os.path.join(SERVING, config)) as file:
            text = file.read()
        changes = [("/etc/nginx/registry/", self.folder + "/"), ("/var/log/nginx/", self.folder + "/"), *changes]
        for port, other in ports.items():
            if other:
                text = text.replace("# server 127.0.0.1:%d " % port, "server 127.0.0.1:%d " % port)
                changes.append(("127.0.0.1:%d " % port, "127.0.0.1:%d " % other))
        for old, new in changes:
            if old not in text:
                raise SystemExit("docs/serving/%s has no %r" % (config, old))
            text = text.replace(old, new)
        text = re.sub(r"listen \d+ ", "listen 127.0.0.1:%d " % self.port, text)
        open(self.folder + "/passwords", "w").close()
        with open(self.folder + "/nginx.conf", "w") as file:
            file.write("daemon off;\nworker_processes 2;\npid %s/pid;\nevents { worker_connections 1024; }\n"
                       "http {\n%s}\n" % (self.folder, text))

    def connect(self, certificate="ann"):
        context = ssl.create_default_context(cafile=self.folder + "/server.pem")
        if certificate:
            context.load_cert_chain("%s/%s.pem" % (self.folder, certificate), "%s/%s.key" % (self.folder, certificate))
        conn = socket.create_connection(("127.0.0.1", self.port), 30)
        conn.setsockopt(socket.IPPROTO_TCP, socket.TCP_NODELAY, 1)
        return context.wrap_socket(conn, server_hostname="localhost")

    def message(self, method, target, fields=(), body=None):
        lines = ["%s %s HTTP/1.1" % (method, target), "Host: localhost", *fields]
        if body is not None:
            lines.append("Content-Length: %d" % len(body))
        return "\r\n".join([*lines, "", ""]).encode() + (body or b"")

    def ask(self, sent, certificate="ann"):
        with self.connect(certificate) as conn:
            conn.sendall(sent)
            return Answers(conn).next()

    def client(self, sent, body, count, found):
        """Asks so often, and tells how long each answer took and whether all were the same."""
        times, same = [], True
        for start in range(0, count, MESSAGES):
            with self.connect() as conn:
                answers = Answers(conn)
                for _ in range(min(MESSAGES, count - start)):
                    before = time.perf_counter()
                    conn.sendall(sent)
                    response = answers.next()
                    times.append(time.perf_counter() - before)
                    same = same and (response.status, response.body) == (200, body)
        found.put((times, same))

    def load(self, clients, sent, first, count):
        """So many clients at once, each asking so often: the seconds, the times, and whether all answers were the first."""
        if first.status != 200:
            raise SystemExit("the front end answers %r" % first.bytes)
        found = multiprocessing.SimpleQueue()
        running = [multiprocessing.Process(target=self.client, args=(sent, first.body, count, found)) for _ in range(clients)]
        before = time.perf_counter()
        for process in running:
            process.start()
        told = [found.get() for _ in running]
        seconds = time.perf_counter() - before
        for process in running:
            process.join()
        return seconds, [t for times, _ in told for t in times], all(same for _, same in told)

    def __enter__(self):
        return self

    def __exit__(self, *_):
        self.process.terminate()
        self.process.wait()
