"""What the command lines of the tools share."""

import argparse


class Once(argparse.Action):
    """Keeps what a word says; the word is refused where it comes again."""

    def __call__(self, parser, words, value, option_string=None):
        if getattr(words, self.dest) is not None:
            raise argparse.ArgumentError(self, "is given twice")
        setattr(words, self.dest, value)
