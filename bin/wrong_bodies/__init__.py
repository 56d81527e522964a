"""Judges wrong bodies: edits that turn what a function does, each of which the contracts of its crate must refuse.

A wrong body shows that a contract says something: where the crate is still proved with it, the contract is too weak.
Many are judged by one check of their crate, a round, since the prover says of each function by itself whether it is
proved."""
