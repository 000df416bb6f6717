"""What the programs of compare/ share, one subject a file. Nothing here is run by itself."""
