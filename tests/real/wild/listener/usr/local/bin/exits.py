"""An event listener as administrators write it: it notes each event on its standard error."""
import sys

while True:
    print("READY", flush=True)
    header = dict(word.split(":") for word in sys.stdin.readline().split())
    body = dict(word.split(":") for word in sys.stdin.read(int(header["len"])).split())
    print(header["eventname"], body["processname"], body["from_state"], file=sys.stderr, flush=True)
    print("RESULT 2\nOK", end="", flush=True)
