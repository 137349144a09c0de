"""Tests of the tools, which `make test` runs first: no prover, no network, some seconds."""
