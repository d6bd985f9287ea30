"""What the commands in bin/ share. It stands beside them so that a copy of bin/ and tests/programs.py is whole, but for bin/compiled, which
needs tests/compiled.py too.
"""
