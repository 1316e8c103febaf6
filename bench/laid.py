"""Images, as tests/model writes them, and regions one after another in their RAM."""
import os
import sys

sys.path.insert(0, os.path.join(os.path.dirname(os.path.abspath(__file__)), "../tests"))
from model import images

MIB = 1 << 20


class Laid:
    """Regions from RAM's first address on."""

    def __init__(self):
        self.end = 0x80000000

    def placed(self, size):
        """The base and the length of a region of that many bytes after the last one."""
        length = images.region_length(size)
        while images.least(self.end, self.end + length) != (self.end, self.end + length):
            self.end += 16
        base, self.end = self.end, self.end + length
        return base, length

    def rest(self):
        """Where what is left begins."""
        return -(-self.end // 16) * 16
