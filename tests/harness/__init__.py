"""What the tests share: servers, sessions, ports, folders, stores, machines, and libraries that are preloaded before a program."""
