"""An interpreter of the language of the rows, written from the standard and from the rules of transactions, for tests."""
