"""Calls of the AWS CLI, as checks/clients.py makes them. It is no check."""

import json
import os
import subprocess


def version_of_cli():
    """Its name and version, none where it isn't installed."""
    try:
        run = subprocess.run(["aws", "--version"], capture_output=True, text=True, timeout=120)
    except OSError:
        return None
    return (run.stdout or run.stderr).split()[0] if run.returncode == 0 else None


def dynamodb(endpoint, *words):
    """The status of a call, and what it printed: the JSON of a reply, or the message of an error."""
    settings = {
        "AWS_ACCESS_KEY_ID": "any",
        "AWS_SECRET_ACCESS_KEY": "any",
        "AWS_DEFAULT_REGION": "local",
        "AWS_CONFIG_FILE": os.devnull,
        "AWS_SHARED_CREDENTIALS_FILE": os.devnull,
        "AWS_PAGER": "",
    }
    run = subprocess.run(
        ["aws", "dynamodb", *words, "--output", "json", "--endpoint-url", endpoint],
        env={**os.environ, **settings},
        capture_output=True,
        text=True,
        timeout=120,
    )
    return run.returncode, json.loads(run.stdout or "{}") if run.returncode == 0 else run.stderr
