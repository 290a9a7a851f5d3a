"""Libraries in C that answer some calls of a program into which they are loaded, and what loads them."""
