"""python3 -m makhloeum.check DIR"""

import sys

from .._interrupts import ended_by_interrupt
from . import main

sys.exit(ended_by_interrupt(main, sys.argv[1:]))
