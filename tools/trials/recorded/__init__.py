"""The trials of tools/record: control planes and clients on loopback. Run by /usr/bin/python3, where gRPC's package is."""
