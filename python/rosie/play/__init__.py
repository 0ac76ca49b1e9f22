"""The playground: a page in the browser for making patterns by trying them."""
