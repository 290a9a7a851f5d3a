"""A gateway for unmodified S3 clients. It translates and decides nothing: every refusal is the engine's."""
