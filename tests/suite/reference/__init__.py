"""A second reading of the formats, written from the standards and PROTOCOL.md, to compare the program with."""
