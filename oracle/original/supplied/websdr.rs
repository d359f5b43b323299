// Named by lib.rs, not in docs/src, not judged.
