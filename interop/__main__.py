"""The command, as in: python3 -m interop --check FILE"""
import sys

from .command import main

if __name__ == "__main__":
    sys.exit(main(name="python3 -m interop"))
