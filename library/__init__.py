"""The library: its C header, its Rust wrapper, and what builds and tests both on this machine."""
