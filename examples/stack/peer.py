#!/usr/bin/env python3
"""Sockets of the kernel against echo.c: each message has to come back as it was. Prints what failed, and exits with 1 where something did."""
import os
import socket
import sys
import threading

MESSAGES, CONNECTIONS, SIZE, TRIES = 3000, 4, 1000, 20
failures = []


def fail(what):
    failures.append(what)


def datagrams():
    sockets = [socket.socket(socket.AF_INET, socket.SOCK_DGRAM) for _ in range(8)]
    again = 0
    for number in range(MESSAGES):
        one = sockets[number % len(sockets)]
        one.settimeout(0.5)
        message = b"%08d" % number + os.urandom(number % 900)
        for _ in range(TRIES):  # (a datagram may be lost on its way)
            one.sendto(message, ("10.9.1.2", 7))
            try:
                answer = one.recv(2000)
                while answer[:8] != message[:8]:
                    answer = one.recv(2000)
            except TimeoutError:
                again += 1
                continue
            if answer != message:
                fail(f"datagram {number} is another")
            break
        else:
            fail(f"datagram {number} has no answer")
    print(f"{MESSAGES} datagrams, {again} sent again")


def connection(number):
    with socket.create_connection(("10.9.2.2", 8), 10) as one:
        one.settimeout(20)
        for _ in range(MESSAGES // CONNECTIONS):
            message = os.urandom(SIZE)
            one.sendall(message)
            answer = b""
            while len(answer) < SIZE:
                part = one.recv(65536)
                if not part:
                    return fail(f"connection {number} has ended")
                answer += part
            if answer != message:
                return fail(f"connection {number} has other bytes")


def noise():
    """To ports that no filter names, and to a service whose capability is gone: nobody answers."""
    with socket.socket(socket.AF_INET, socket.SOCK_DGRAM) as one:
        for _ in range(300):
            for address in ("10.9.1.2", 9), ("10.9.2.2", 7), ("10.9.3.2", 7):
                one.sendto(b"x" * 50, address)
        one.settimeout(0.5)
        try:
            fail(f"an answer from {one.recvfrom(2000)[1]}")
        except OSError:
            pass


def tried(work, *arguments):
    try:
        work(*arguments)
    except OSError as why:
        fail(f"{work.__name__}: {why}")


threads = [threading.Thread(target=tried, args=(work,)) for work in (datagrams, noise)]
threads += [threading.Thread(target=tried, args=(connection, number)) for number in range(CONNECTIONS)]
for thread in threads:
    thread.start()
for thread in threads:
    thread.join()
print("\n".join(failures) or "every byte came back")
sys.exit(1 if failures else 0)
