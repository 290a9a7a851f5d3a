"""The desk as pages for a browser: each page is what a subcommand answers, and each refusal is the engine's."""
