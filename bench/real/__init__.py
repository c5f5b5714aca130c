"""Programs that no one here wrote, built from Debian's source packages as they are, and profiled at three sizes of input."""
