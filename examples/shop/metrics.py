"""Numbers of the operations in Prometheus' text."""

import threading
from collections import defaultdict

BUCKETS = [0.001, 0.005, 0.025, 0.1, 0.5, 2.5]


class Metrics:
    """Counts what each operation took. Names are those of clients, so only so many are told apart."""

    def __init__(self, names=200):
        self._names, self._lock = names, threading.Lock()
        self._counts, self._sums = defaultdict(int), defaultdict(float)
        self._buckets = [0] * len(BUCKETS)

    def note(self, told):
        """Notes an operation: the hook of an endpoint."""
        with self._lock:
            known = {name for name, _, _ in self._counts}
            name = told.name or ""
            name = name if name in known or len(known) < self._names else "other"
            self._counts[name, told.kind or "none", told.status] += 1
            for part in ("errors", "rounds", "asks", "seconds", "engine_seconds", "resolver_seconds"):
                self._sums[part] += getattr(told, part)
            for at, most in enumerate(BUCKETS):
                self._buckets[at] += told.seconds <= most

    def text(self):
        """The text."""
        with self._lock:
            lines = ["# TYPE graphql_operations_total counter"]
            for (name, kind, status), count in sorted(self._counts.items()):
                lines.append(f'graphql_operations_total{{name="{name}",kind="{kind}",status="{status}"}} {count}')
            for part in ("errors", "rounds", "asks", "engine_seconds", "resolver_seconds"):
                lines += [f"# TYPE graphql_{part}_total counter", f"graphql_{part}_total {self._sums[part]:g}"]
            lines.append("# TYPE graphql_seconds histogram")
            lines += [f'graphql_seconds_bucket{{le="{most}"}} {count}' for most, count in zip(BUCKETS, self._buckets)]
            total = sum(self._counts.values())
            lines += [f'graphql_seconds_bucket{{le="+Inf"}} {total}', f"graphql_seconds_sum {self._sums['seconds']:g}", f"graphql_seconds_count {total}"]
            return "\n".join(lines) + "\n"
