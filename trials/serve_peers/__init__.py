"""What trials/serve-peers is made of: its trials by subject, each of which is given what begins a server."""

from serve_peers.ends import ends, no_address, no_descriptors, other_addresses, restarted, taken, told_to_end
from serve_peers.peers import half_closed, many, never_reads, never_reads_and_resets, one_more, resets, stalls, vanishes
from serve_peers.requests import closing, greatest, kept_alive, pipelined, refused, seen_elsewhere, single_bytes, soon, too_large

TRIALS = {it.__name__: it for it in (
    vanishes, resets, stalls, never_reads, never_reads_and_resets, half_closed, one_more, many,
    single_bytes, pipelined, kept_alive, closing, greatest, refused, too_large, seen_elsewhere, soon,
    ends, told_to_end, restarted, taken, no_address, other_addresses, no_descriptors)}
