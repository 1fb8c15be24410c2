#!/usr/bin/env python3
"""Keeps `dictd once` as its child, and asks it for the countries and the prices of a few parcels.

Called as `client.py DICTD DEFS`, in the folder that the programs of the definitions file are started in.
"""
import subprocess
import sys

LETTERS = {"b": "\b", "f": "\f", "r": "\r", "n": "\n", "t": "\t", "0": "\0", "'": "'", "\\": "\\"}
ESCAPES = {byte: "\\" + letter for letter, byte in LETTERS.items()}


def escaped(text):
    return "".join(ESCAPES.get(it, it) for it in text)


def unescaped(text):
    """The text of a field of a reply; None for NULL."""
    if text == "\\N":
        return None
    parts = text.split("\\")
    made, rest = parts[0], iter(parts[1:])
    for part in rest:
        # An empty part stands between two backslashes, which mean one.
        made += LETTERS[part[0]] + part[1:] if part else "\\" + next(rest)
    return made


class Dictd:
    def __init__(self, program, definitions):
        self.child = subprocess.Popen([program, "once", definitions, "1"], stdin=subprocess.PIPE, stdout=subprocess.PIPE, text=True)

    def line(self):
        line = self.child.stdout.readline()
        if not line:
            raise SystemExit("dictd ended")
        return line.rstrip("\n")

    def ask(self, *fields):
        """The fields of the one line of a reply."""
        self.child.stdin.write("\t".join(map(escaped, fields)) + "\n")
        self.child.stdin.flush()
        return self.line().split("\t")

    def get(self, dictionary, attribute, *key):
        """The version that answered, and the value's text."""
        reply = self.ask("dictGet", dictionary, attribute, *key)
        if reply[0] != "OK":
            raise LookupError("\t".join(reply))
        return int(reply[1][1:]), unescaped(reply[2])

    def get_many(self, dictionary, attribute, keys):
        """The version that answered all of them, and a value's text for each key."""
        head = ["many", str(len(keys)), "dictGet", dictionary, attribute]
        lines = ["\t".join(map(escaped, fields)) + "\n" for fields in [head, *keys]]
        self.child.stdin.write("".join(lines))
        self.child.stdin.flush()
        reply = self.line().split("\t")
        if reply[0] != "OK":
            raise LookupError("\t".join(reply))
        return int(reply[1][1:]), [unescaped(self.line()) for _ in keys]

    def close(self):
        self.ask("quit")
        return self.child.wait()


def main():
    dictd = Dictd(*sys.argv[1:3])
    print("price", *dictd.get("tariff", "price", "eu", "1", "2024-06-30"))
    print("countries", *dictd.get_many("geo.country", "name", [["36"], ["40"], ["41"]]))
    print("reload", dictd.ask("reload", "net"))
    print("network", *dictd.get("net", "cc", "202.79.40.7"))
    print("status", dictd.close())


if __name__ == "__main__":
    main()
