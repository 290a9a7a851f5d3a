"""What trials are made of: how the program is run and served, calls that fail, a clean system, a browser."""
