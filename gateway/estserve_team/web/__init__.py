"""The page's process: the team over HTTP. It is one more client of the gateway, at page.sock, and
has no right of its own; each request shows the secrets of its visitor there.

`serving` begins it. Nothing of the gateway's own process imports more of this than `options`."""
