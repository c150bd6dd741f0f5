#!/usr/bin/env python3
"""Writes the problems of LDFs as SARIF 2.1.0, for servers that show them in reviews:

    ./linsim check FILE --to json | tools/sarif.py

Standard input has one object of `check --to json` on each line.
"""
import json
import sys

LEVELS = {"fault": "error", "finding": "error", "warning": "warning"}


def result_of(file, told):
    """A reported problem of a file as a result."""
    text = told["name"] if told["token"] is None else f"{told['name']}: {told['token']}"
    if told["needed_us"] is not None:
        text += f" (needs {told['needed_us']} us)"
    place = {"artifactLocation": {"uri": file}}
    if told["line"] is not None:
        place["region"] = {"startLine": told["line"], "startColumn": told["column"]}
    rule = told["kind"] if told["number"] is None else f"{'fault' if told['kind'] == 'fault' else 'linsim'} {told['number']}"
    return {
        "ruleId": rule,
        "level": LEVELS[told["kind"]],
        "message": {"text": text},
        "locations": [{"physicalLocation": place}],
    }


def results_of(lines):
    """The results of all problems, of at least one object."""
    results, number = [], 0
    for number, line in enumerate(lines, 1):
        try:
            one = json.loads(line)
            results += [result_of(one["file"], told) for told in one["told"]]
        except (KeyError, TypeError, ValueError):
            sys.exit(f"tools/sarif.py: line {number} of standard input isn't an object of `linsim check FILE --to json`")
    if number == 0:
        sys.exit("tools/sarif.py: no line on standard input; expected the output of `linsim check FILE --to json`")
    return results


def sarif_of(results):
    """The log of these results."""
    rules = [{"id": rule} for rule in sorted({result["ruleId"] for result in results})]
    run = {
        "tool": {"driver": {"name": "linsim", "rules": rules}},
        "columnKind": "unicodeCodePoints",
        "results": results,
    }
    return {"$schema": "https://json.schemastore.org/sarif-2.1.0.json", "version": "2.1.0", "runs": [run]}


json.dump(sarif_of(results_of(sys.stdin)), sys.stdout, indent=1)
print()
