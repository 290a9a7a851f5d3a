"""The body store: the bytes of documents outside the vault, each named by its SHA-256. The vault is the ledger, and
whoever reads bytes here compares them with its digest before they count."""
