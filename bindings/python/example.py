"""Cuts the text on the command line, or `THD 1250`, and prints its tokens in brackets, one a line."""
import os
import sys

from njuxaleet import Refused, cut


def main():
    text = os.fsencode(sys.argv[1]) if len(sys.argv) > 1 else b'THD 1250'
    try:
        tokens = cut(text)
    except Refused as refusal:
        print(f'refused {refusal.number} at {refusal.place}')
        return 1
    sys.stdout.buffer.write(b''.join(b'[' + token + b']\n' for token in tokens))
    return 0


if __name__ == '__main__':
    sys.exit(main())
