#!/usr/bin/env python3
"""Checks the manifest of an indexed job, as examples/cluster/kubernetes.sh writes it: manifest.py FILE LIST.

What the pods run is run here, as pod 1.
"""
import os
import shutil
import subprocess
import sys
from pathlib import Path

import yaml

job = yaml.safe_load(Path(sys.argv[1]).read_text(encoding="utf-8"))
spec = job["spec"]
pod = spec["template"]["spec"]
container = pod["containers"][0]
assert (job["apiVersion"], job["kind"]) == ("batch/v1", "Job"), job
assert job["metadata"]["name"].startswith("zigrunk-"), job
assert (spec["completionMode"], spec["completions"], spec["parallelism"]) == ("Indexed", 3, 3), spec
assert pod["restartPolicy"] == "Never", pod
terms = pod["affinity"]["nodeAffinity"]["requiredDuringSchedulingIgnoredDuringExecution"]["nodeSelectorTerms"]
left_out = terms[0]["matchExpressions"][0]
assert left_out["operator"] == "NotIn" and left_out["values"] == ["none", *["node1", "node2"] * 2], left_out
assert container["volumeMounts"][0]["name"] == pod["volumes"][0]["name"] == "share", pod
assert shutil.which(container["command"][0]), container
made = subprocess.run(container["command"], env={**os.environ, "JOB_COMPLETION_INDEX": "1"}, cwd="/", check=False)
assert made.returncode == 0, [made, *[path.read_text() for path in Path(sys.argv[2]).parent.glob(".zigrunk-batch/*.said")]]
folder = Path(sys.argv[2]).parent
assert sorted(path.name for path in folder.glob("k*.o")) == ["k2.o"], list(folder.iterdir())
