"""Lets tools/json read each file, or each answer of a file whose answers are parted by a line `--`, and holds what it writes
against docs/report.schema.json."""

import json
import subprocess
import sys
from pathlib import Path

import jsonschema

schema = json.loads(Path("docs/report.schema.json").read_text())
validator = jsonschema.Draft202012Validator(schema)
for name in sys.argv[1:]:
    for text in Path(name).read_text().split("--\n"):
        written = subprocess.run(["tools/json"], input=text, capture_output=True, text=True, check=True).stdout
        for error in validator.iter_errors(json.loads(written)):
            sys.exit(f"{name}: {error.message}")
