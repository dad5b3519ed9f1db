"""The debug adapter's parts: wire (messages), machine (a conversation with `ebpf debug`), source (lines and pcs),
search (what explore finds), variables, and adapter (requests)."""
