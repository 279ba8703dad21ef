"""A broker on several machines, over etcd: see docs/CLUSTER.md.

| file | what it has |
|---|---|
| `etcd.py` | a client of etcd by its JSON gateway |
| `log.py` | the log of frames in etcd: terms, appends, snapshots |
| `replica.py` | a follower of the log, over the library's stand-by |
| `election.py` | a term: won by a lease, and kept |
| `leader.py` | the broker of a term: steps, appends, answers |
| `port.py` | lines of JSON over TCP |
| `node.py` | a node, from these; `python3 -m mdsal_cluster.node` |
| `client.py` | a client; `python3 -m mdsal_cluster.client` |
| `local.py` | members of etcd and nodes on one machine; `python3 -m mdsal_cluster.local` |

It needs the module `mdsal` and etcd 3.4 or later, and nothing else.
"""
