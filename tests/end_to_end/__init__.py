"""Tests of the built program, from its words to its files, texts and statuses."""
