"""For all tests of this folder: one form of summary, and a test that lacks something is not run."""
pytest_plugins = ["suite.counted"]
