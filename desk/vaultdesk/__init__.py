"""The office's desk: documents, deliveries and records of a vault, in words and without JSON."""

__version__ = "0.9.0"
