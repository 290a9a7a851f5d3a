"""Tests of the desk over the real engine, $VAULTCTL."""
