"""Counts the cases of a test, and says which failed."""
import sys


class Cases:
    def __init__(self, title):
        self.title, self.cases, self.failures = title, 0, 0

    def check(self, name, right, told):
        self.cases += 1
        if not right:
            self.failures += 1
            print("%s: %s: %s" % (self.title, name, told))

    def same(self, name, wanted, told):
        self.check(name, told == wanted, "wanted %r, told %r" % (wanted, told))

    def end(self):
        if self.failures:
            print("%s: %d of %d cases failed" % (self.title, self.failures, self.cases))
            sys.exit(1)
        print("%s: %d cases passed" % (self.title, self.cases))
