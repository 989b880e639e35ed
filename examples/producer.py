#!/usr/bin/env python3
"""A producer: answers each packet that comes to PORT of 127.0.0.1 with the next DATA, and ends after the last.

    producer.py PORT DATA..      DATA is a packet in hexadecimal, as `ndn_tool data` prints it
"""

import socket
import sys

port = socket.socket(socket.AF_INET, socket.SOCK_DGRAM)
port.bind(("127.0.0.1", int(sys.argv[1])))
for data in sys.argv[2:]:
    interest, node = port.recvfrom(9000)
    port.sendto(bytes.fromhex(data), node)
