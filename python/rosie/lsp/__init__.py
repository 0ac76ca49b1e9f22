"""A language server for RPL, over standard input and output."""
