"""Clients of S3 and the gateway that they ask: for the trials of s3.py."""
