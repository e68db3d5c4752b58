"""For tests/scripts/quorumctl-images.sh, which says what is tested."""
import os
import pty
import subprocess
import sys

main, side = pty.openpty()
os.write(main, b"\x04")  # Ctrl-D: the text ends
done = subprocess.run(sys.argv[1:], stdin=side, stdout=subprocess.PIPE, stderr=subprocess.PIPE, text=True, timeout=60)
print(done.returncode, done.stderr, end="")
