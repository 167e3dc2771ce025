"""The parts of .ci/soak: soak, fuzz and crash tests of the server."""
