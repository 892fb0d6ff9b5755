"""Thirty-two threads in parallel for SOAK seconds; then the kept trace replays to the same bytes."""
import os
import subprocess
import sys

sys.path.insert(0, os.path.dirname(os.path.dirname(os.path.realpath(__file__))))
from support import CGREPLAY, CGSHELL, PROGRAM, TRACE_MAX, Mount, finish, same, step

SECONDS = os.environ.get("SOAK") or "6"
m = Mount(control=False)
ran = subprocess.run(
    [os.path.join(os.path.dirname(PROGRAM), "load"), m.at, "32", SECONDS], stdout=subprocess.PIPE, text=True
)
print("  " + ran.stdout.strip())
same("each client finds its own group as it left it", ran.returncode, 0)
step("it can be unmounted", m.unmounted())
same("its process ends", m.ended(), 0)
size = os.path.getsize(m.trace)
by = CGREPLAY if size <= TRACE_MAX else [CGSHELL]
if os.path.exists(by[0]):
    with open(m.trace) as trace, open(m.answers, "rb") as answers:
        replay = subprocess.Popen(by, stdin=trace, stdout=subprocess.PIPE)
        step(
            "%s gives the same answers (%d bytes of trace)" % (os.path.basename(by[0]), size),
            replay.communicate()[0] == answers.read(),
        )
else:
    step("a trace of %d bytes can be replayed here" % size, False)
finish()
