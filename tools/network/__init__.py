"""A network round `serve`, for example_network.py and the benchmarks: devices, gateways, a join server, and what must come of each."""
