"""What stands at both ends of a proxy in refusals.sh and fuzz.sh.

loopback.py target PORT     accepts connections, and sends back what it reads until the end of input
loopback.py clients PORT    two clients, one after the other: each sends 40,000 bytes, shuts its side and reads to the end

and of a relay of packets in refusals.sh:

loopback.py answers PORT    sends each packet back
loopback.py packets PORT    a client that sends a packet every five milliseconds, until it is ended
"""

import socket
import sys
import threading
import time

HOST = "127.0.0.1"
BYTES = bytes(range(256)) * 157


def answer(link):
    with link:
        try:
            while True:
                found = link.recv(65536)
                if not found:
                    return
                link.sendall(found)
        except OSError:
            pass


def target(port):
    listener = socket.create_server((HOST, port), reuse_port=False)
    while True:
        link, _ = listener.accept()
        threading.Thread(target=answer, args=(link,), daemon=True).start()


def connected(port):
    """A connection to the proxy, which may not listen yet; none where it doesn't within ten seconds."""
    for _ in range(2000):
        try:
            return socket.create_connection((HOST, port), timeout=10)
        except OSError:
            time.sleep(0.005)
    return None


def client(port):
    link = connected(port)
    if link is None:
        return
    with link:
        try:
            link.sendall(BYTES)
            link.shutdown(socket.SHUT_WR)
            while link.recv(65536):
                pass
        except OSError:
            pass


def answers(port):
    with socket.socket(socket.AF_INET, socket.SOCK_DGRAM) as link:
        link.bind((HOST, port))
        while True:
            packet, sender = link.recvfrom(65536)
            link.sendto(packet, sender)


def packets(port):
    with socket.socket(socket.AF_INET, socket.SOCK_DGRAM) as link:
        while True:
            link.sendto(BYTES[:1400], (HOST, port))
            time.sleep(0.005)


def main(words):
    kind, port = words[0], int(words[1])
    if kind == "target":
        target(port)
    if kind == "answers":
        answers(port)
    if kind == "packets":
        packets(port)
    for _ in range(2):
        client(port)


if __name__ == "__main__":
    main(sys.argv[1:])
