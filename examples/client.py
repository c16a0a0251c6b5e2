#!/usr/bin/env python3
"""A client: it writes a line to the program, reads the reply, and says what comes next by what it read.

    examples/client.py EXECUTABLE

Two surveyors do not agree on a height. For each premise of the reason the client asks what follows without it.
"""
import subprocess
import sys
from pathlib import Path


class Workbench:
    """A run of the program, over a pipe."""

    def __init__(self, executable, declaration):
        call = [executable, "run", declaration]
        self.run = subprocess.Popen(call, stdin=subprocess.PIPE, stdout=subprocess.PIPE, text=True)

    def say(self, command):
        """The reply to a command, without its number. (A blank line or a comment would get none.)"""
        self.run.stdin.write(command + "\n")
        self.run.stdin.flush()
        reply = self.run.stdout.readline()
        if not reply:
            raise EOFError("the program has ended")
        return reply.rstrip("\n").partition(": ")[2]

    def end(self):
        """The status of the program after the end of its input."""
        self.run.stdin.close()
        return self.run.wait()


workbench = Workbench(sys.argv[1], Path(__file__).parent / "surveyors" / "declaration")
workbench.say("ada tell height 4480..4530 under theodolite")
workbench.say("ada tell height 4495..4560 under theodolite clear_air")
workbench.say("ben tell height 4550..4650 under barometer")
height, _, reason = workbench.say("ben why height").partition(" because ")
print(f"{height} because {reason}")
for premise in reason.split():
    workbench.say(f"ben doubt {premise}")
    print(f"without {premise}: {workbench.say('ben ask height')}")
    workbench.say(f"ben believe {premise}")
sys.exit(workbench.end())
