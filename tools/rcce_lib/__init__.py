"""The modules of the command rcce."""
