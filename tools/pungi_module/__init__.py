"""pungi-module: from a module as it stands to findings that a person can act on."""
