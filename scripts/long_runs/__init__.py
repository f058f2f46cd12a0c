"""Long random runs of the connector beside a model that is written from the rules
(docs/PROTOCOL.md, docs/OPERATING.md) and shares nothing with the crates; scripts/long_run.py starts
them."""
