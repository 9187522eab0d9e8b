"""A second reading of CP/M's files in Python, which shares nothing with the Rattle code: `tests/second-reading`, `tests/random-calls`, `tests/interop`."""
