"""Words of the commands in this folder."""
import argparse


def number_from(least, greatest):
    """What reads a number of these bounds for argparse, and refuses any other word."""
    def read(word):
        if not word.isdecimal() or not least <= int(word) <= greatest:
            raise argparse.ArgumentTypeError("%r is no number from %d to %d" % (word, least, greatest))
        return int(word)
    return read
