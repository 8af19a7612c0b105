#!/usr/bin/env python3
"""How many requests a second go through HAProxy without a filter, with the agent without rules and with
examples/realistic.rules; and how many ACKs a second the agent writes on one connection and on four.

    serve.py [--seconds N] [--clients N] [--program FILE] [--reload]

It starts HAProxy, the agent and a server of its own on loopback, on ports that are free.  Needs haproxy and wrk
(Debian's packages); where one is missing it says so, and shows the ACKs alone.  With --reload the agent loads its
configuration anew every second while requests come.  The status is 1 where a request failed.
"""
import argparse
import json
import multiprocessing
import os
import re
import shutil
import socket
import subprocess
import sys
import tempfile
import threading
import time

sys.path.insert(0, os.path.dirname(os.path.abspath(__file__)))
import stream  # noqa: E402

TOP = os.path.dirname(os.path.dirname(os.path.abspath(__file__)))


def free_port():
    with socket.socket() as it:
        it.bind(("127.0.0.1", 0))
        return it.getsockname()[1]


class Agent:
    """A running agent with these rules and so many workers."""

    def __init__(self, program, folder, name, rules, workers):
        self.port, self.workers = free_port(), workers
        conf = os.path.join(folder, name + ".toml")
        with open(conf, "w") as it:
            it.write(f'size = 16380\nworkers = {workers}\nlisten = "127.0.0.1:{self.port}"\ndefault = "site"\n'
                     f'[[app]]\nname = "site"\nrules = {json.dumps(rules)}\nresponses = false\n')
        self.run = subprocess.Popen([program, "serve", conf], stdin=subprocess.PIPE, stdout=subprocess.PIPE)
        answer = self.order("stats")
        if not answer.startswith("stats "):
            self.run.kill()
            raise SystemExit(f"serve.py: the agent did not start: {answer}")

    def order(self, line):
        """Gives an order, and returns the line that it prints."""
        self.run.stdin.write(line.encode() + b"\n")
        self.run.stdin.flush()
        return self.run.stdout.readline().decode().rstrip()

    def stop(self):
        try:
            self.run.stdin.write(b"stop\n")
            self.run.stdin.close()
            return self.run.wait(10)
        except (OSError, subprocess.TimeoutExpired):
            self.run.kill()
            return self.run.wait()


def haproxy(folder, name, agent, server):
    """Starts HAProxy before the server, with the agent as its filter where there is one."""
    port = free_port()
    filters, backend = "", ""
    if agent is not None:
        with open(os.path.join(folder, name + ".spoe"), "w") as it:
            it.write("[coraza]\nspoe-agent coraza\n    messages coraza-req\n    option var-prefix coraza\n"
                     "    option set-on-error spoe_error\n    no option send-frag-payload\n    timeout hello 2s\n"
                     "    timeout idle 30s\n    timeout processing 5s\n    use-backend agent\n"
                     "spoe-message coraza-req\n    args app=str(site) id=unique-id src-ip=src src-port=src_port dst-ip=dst"
                     " dst-port=dst_port method=method path=path query=query version=req.ver headers=req.hdrs"
                     " body=req.body\n    event on-frontend-http-request\n")
        filters = (f"    unique-id-format %[uuid()]\n    filter spoe engine coraza config {folder}/{name}.spoe\n"
                   "    http-request deny deny_status 403 if { var(txn.coraza.action) -m found }\n"
                   "    http-request deny deny_status 503 if { var(txn.coraza.error) -m found }\n"
                   "    http-request deny deny_status 503 if { var(txn.coraza.spoe_error) -m found }\n")
        backend = (f"backend agent\n    mode tcp\n    server agent 127.0.0.1:{agent.port}"
                   f" maxconn {max(1, agent.workers - 4)}\n")
    conf = os.path.join(folder, name + ".cfg")
    with open(conf, "w") as it:
        it.write("global\n    maxconn 4000\ndefaults\n    mode http\n    timeout connect 5s\n    timeout client 60s\n"
                 f"    timeout server 60s\nfrontend web\n    bind 127.0.0.1:{port}\n{filters}    default_backend site\n"
                 f"backend site\n    server site 127.0.0.1:{server}\n{backend}"
                 f"frontend site\n    bind 127.0.0.1:{server}\n    http-request return status 200 content-type text/plain"
                 " string hello\n")
    run = subprocess.Popen(["haproxy", "-db", "-f", conf], stdout=subprocess.DEVNULL, stderr=subprocess.DEVNULL)
    for _ in range(100):
        try:
            socket.create_connection(("127.0.0.1", port), 1).close()
            return run, port
        except OSError:
            time.sleep(0.05)
    run.kill()
    raise SystemExit(f"serve.py: HAProxy did not start: haproxy -c -f {conf} says why")


def requests_a_second(port, clients, seconds):
    """Asks for a page with so many clients, and returns the rate and how many answers were no 200."""
    said = subprocess.run(
        ["wrk", "-t", str(min(2, clients)), "-c", str(clients), "-d", f"{seconds}s", f"http://127.0.0.1:{port}/shop?item=12&page=3"],
        stdout=subprocess.PIPE, text=True, check=True).stdout
    rate = float(re.search(r"Requests/sec:\s*([\d.]+)", said).group(1))
    failed = re.search(r"Non-2xx or 3xx responses: (\d+)", said)
    errors = re.search(r"Socket errors: (.*)", said)
    count = int(failed.group(1)) if failed else 0
    if errors:
        count += sum(int(it) for it in re.findall(r"\d+", errors.group(1)))
    return rate, count


def every_second(agent, over, answers):
    while not over.wait(1):
        answers.append(agent.order("reload"))


def ask(port, place, seconds, told):
    """One connection: batches of 32 requests, each read to its last ACK before the next; tells ACKs a second."""
    requests = [stream.request(b"c%dr%d" % (place, number), b"GET", b"/shop", b"item=12&page=3",
                               [stream.HOST, stream.AGENT], b"") for number in range(32)]
    batch = b"".join(stream.frame(3, number + 1, 1, request) for number, request in enumerate(requests))
    count, start = 0, time.monotonic()
    with socket.create_connection(("127.0.0.1", port), 10) as peer:
        peer.setsockopt(socket.IPPROTO_TCP, socket.TCP_NODELAY, 1)
        peer.sendall(stream.offer())
        take(peer, 1)
        while time.monotonic() - start < seconds:
            peer.sendall(batch)
            if b"\x05error" in take(peer, 32):
                raise SystemExit("serve.py: an ACK has an error")
            count += 32
    told.put(count / (time.monotonic() - start))


def acks_a_second(port, connections, seconds):
    """ACKs a second of so many connections together, each asked by a process of its own."""
    told = multiprocessing.Queue()
    peers = [multiprocessing.Process(target=ask, args=(port, place, seconds, told)) for place in range(connections)]
    for peer in peers:
        peer.start()
    for peer in peers:
        peer.join()
    if any(peer.exitcode for peer in peers):
        raise SystemExit("serve.py: a connection failed")
    return sum(told.get() for _ in peers)


def take(peer, frames):
    """Reads so many frames, and no more are on their way; what they hold."""
    held, at = b"", 0
    while frames:
        while frames and len(held) >= at + 4 and len(held) >= at + 4 + int.from_bytes(held[at:at + 4], "big"):
            at += 4 + int.from_bytes(held[at:at + 4], "big")
            frames -= 1
        if frames:
            piece = peer.recv(65536)
            if not piece:
                raise SystemExit("serve.py: the agent closed a connection")
            held += piece
    return held


def main():
    words = argparse.ArgumentParser()
    words.add_argument("--seconds", type=int, default=10)
    words.add_argument("--clients", type=int, default=64)
    words.add_argument("--program", default=os.path.join(TOP, "yefontsila"))
    words.add_argument("--reload", action="store_true")
    words = words.parse_args()
    rules = os.path.join(TOP, "examples/realistic.rules")
    lost = 0
    with tempfile.TemporaryDirectory() as folder:
        print("| ACKs without HAProxy | connections | a second |\n|---|---|---|")
        for name, files in (("without rules", []), ("realistic rules", [rules])):
            for connections in (1, 4):
                agent = Agent(words.program, folder, "acks", files, 8)
                try:
                    rate = acks_a_second(agent.port, connections, words.seconds)
                finally:
                    agent.stop()
                print(f"| {name} | {connections} | {rate:.0f} |", flush=True)
        missing = [it for it in ("haproxy", "wrk") if shutil.which(it) is None]
        if missing:
            print(f"serve.py: {' and '.join(missing)} not found, so nothing goes through HAProxy", file=sys.stderr)
            return 0
        print(f"\n| through HAProxy, {words.clients} clients | requests a second | failed |\n|---|---|---|")
        for name, files in (("no filter", None), ("agent without rules", []), ("agent with realistic rules", [rules])):
            workers = min(64, words.clients)
            agent = None if files is None else Agent(words.program, folder, "web", files, workers)
            over, answers, run = threading.Event(), [], None
            reloads = threading.Thread(target=every_second, args=(agent, over, answers))
            try:
                run, port = haproxy(folder, "web", agent, free_port())
                if agent is not None and words.reload:
                    reloads.start()
                rate, failed = requests_a_second(port, words.clients, words.seconds)
            finally:
                over.set()
                if reloads.is_alive():
                    reloads.join()
                if run is not None:
                    run.terminate()
                    run.wait()
                if agent is not None:
                    agent.stop()
            if answers:
                name += f", {len(answers)} reloads"
                failed += sum(not it.startswith("published ") for it in answers)
            print(f"| {name} | {rate:.0f} | {failed} |", flush=True)
            lost += failed
    return 1 if lost else 0


if __name__ == "__main__":
    sys.exit(main())
