"""certificate.py FILE [NET]: finds weights by which a net completes properly. FILE is a specification in TOML, and NET is its top where it is left out.

It prints {"net":..,"toml":..,"weights":{..}} with the least weights that it finds. docs/SPECIFICATIONS.md says what a certificate is. Nothing
that this tool says is trusted, since the words `prove` of the program try the certificate.
Statuses: 0; 1 where the net has no certificate or isn't there, or the file isn't a specification's; 2 for wrong words; 3 where the file can't be read.
"""

from __future__ import annotations

import argparse
import json
import sys
from pathlib import Path

from yawl import check, weights
from yawl.nets import Spec


def made(file: str, name: str | None) -> str:
    """The certificate of the net of this name, or of the top net. Raises ValueError where there is none; the text says why."""
    source, spec = check.read(file, Path(file).read_bytes())
    if not isinstance(spec, Spec):
        raise ValueError(spec.shown(source))
    net = spec.net(name or spec.top)
    if net is None:
        raise ValueError(f"no net has the name {name or spec.top}")
    found = weights.weights_of(net)
    if found is None:
        raise ValueError("the net has no certificate")
    return json.dumps({"net": net.name, "toml": source.text, "weights": found}, separators=(",", ":"), ensure_ascii=False)


def main() -> int:
    """Gives the status."""
    parser = argparse.ArgumentParser(prog="certificate.py", description=__doc__, formatter_class=argparse.RawDescriptionHelpFormatter)
    parser.add_argument("file", metavar="FILE", help="a specification in TOML")
    parser.add_argument("net", metavar="NET", nargs="?", help="the name of a net")
    given = parser.parse_args()
    try:
        print(made(given.file, given.net))
    except ValueError as cause:
        print(cause, file=sys.stderr)
        return 1
    except OSError as cause:
        print(f"certificate.py: {cause}", file=sys.stderr)
        return 3
    return 0


if __name__ == "__main__":
    sys.exit(main())
