"""What the workbench cannot do, said in one line."""


class Fault(Exception):
    """A fault of an input, or of what stands around: its text is for the user."""


class Missing(Fault):
    """A package that is not installed."""
