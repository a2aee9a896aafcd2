"""A plain model of jpq and jpgrep, written from RFC 8259, RFC 9535, RFC 9485 and RFC 7464, and what compares the programs with it."""
