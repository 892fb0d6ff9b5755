"""console.py SOCKET IN OUT: takes the terminal that a container runtime hands over (--console-socket); what is written to the
named pipe IN is typed there, and what is shown goes to the file OUT."""
import array
import os
import select
import socket
import sys

at, typed, shown = sys.argv[1:]
server = socket.socket(socket.AF_UNIX)
server.bind(at)
server.listen(1)
connection, _ = server.accept()
_, head, _, _ = connection.recvmsg(4096, socket.CMSG_SPACE(4))
terminal = array.array("i", head[0][2][:4])[0]
connection.close()
keys = os.open(typed, os.O_RDWR)
with open(shown, "wb", buffering=0) as out:
    while True:
        ready, _, _ = select.select([terminal, keys], [], [])
        if keys in ready:
            os.write(terminal, os.read(keys, 4096))
        if terminal in ready:
            try:
                text = os.read(terminal, 4096)
            except OSError:  # EIO: nobody has the terminal open any more
                break
            out.write(text)
