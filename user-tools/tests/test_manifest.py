"""The manifest for Kubernetes."""

from __future__ import annotations

import importlib.util
import json
import re
import shutil
import subprocess
import unittest
from collections.abc import Iterator
from typing import Any

from trial.programs import SLOWER

from .plain_yaml import read
from .test_image import DOCKERFILE, words_of
from .test_package import TOP, VERSION

MANIFEST, BEHIND = ((TOP / "packaging" / "kubernetes" / f"{name}.yaml").read_text() for name in ("sidecar", "behind"))

TEXTS = {"*": str}
AMOUNTS = {"cpu?": str, "memory?": str, "storage?": str}
SECURITY = {"runAsNonRoot": bool, "runAsUser": int, "runAsGroup": int, "allowPrivilegeEscalation": bool, "readOnlyRootFilesystem": bool,
            "capabilities": {"drop": [str]}}
CONTAINER = {
    "name": str, "image": str, "args?": [str], "env?": [{"name": str, "value": str}], "ports?": [{"name": str, "containerPort": int}],
    "readinessProbe?": {"exec": {"command": [str]}, "periodSeconds": int, "timeoutSeconds": int},
    "resources?": {"requests": AMOUNTS, "limits": AMOUNTS}, "securityContext?": SECURITY,
    "volumeMounts?": [{"name": str, "mountPath": str, "readOnly?": bool}],
}
VOLUME = {
    "name": str, "secret?": {"secretName": str, "defaultMode": int}, "persistentVolumeClaim?": {"claimName": str},
    "emptyDir?": {"medium": str}, "configMap?": {"name": str},
}
APART = {"topologyKey": str, "labelSelector": {"matchExpressions": [{"key": str, "operator": str, "values": [str]}]}}
POD = {"automountServiceAccountToken": bool, "securityContext": {"fsGroup": int, "seccompProfile": {"type": str}},
       "affinity?": {"podAntiAffinity": {"requiredDuringSchedulingIgnoredDuringExecution": [APART]}},
       "containers": [CONTAINER], "volumes": [VOLUME]}
DEPLOYMENT = {
    "apiVersion": str, "kind": str, "metadata": {"name": str},
    "spec": {"replicas": int, "strategy": {"type": str}, "selector": {"matchLabels": TEXTS},
             "template": {"metadata": {"labels": TEXTS, "annotations": TEXTS}, "spec": POD}},
}
CLAIM = {"apiVersion": str, "kind": str, "metadata": {"name": str}, "spec": {"accessModes": [str], "resources": {"requests": AMOUNTS}}}
"""The fields of Kubernetes' interface that the manifest has, each with the kind of its value. One with a question mark may be absent."""


def faults(value: object, shape: object, place: str = "") -> Iterator[str]:
    """Where the value is not of this shape."""
    if isinstance(shape, dict) and isinstance(value, dict):
        fields = {key.rstrip("?"): inner for key, inner in shape.items()}
        yield from (f"{place}: {key} is missing" for key in shape if key not in value and not key.endswith(("?", "*")))
        for key, inner in value.items():
            if key not in fields and "*" not in fields:
                yield f"{place}: {key} is unknown"
            else:
                yield from faults(inner, fields.get(key, fields.get("*")), f"{place}.{key}")
    elif isinstance(shape, list) and isinstance(value, list):
        for number, inner in enumerate(value):
            yield from faults(inner, shape[0], f"{place}.{number}")
    elif type(value) is not shape:
        yield f"{place}: {value!r} is of another kind"


def lost(value: object, other: object, place: str = "") -> Iterator[str]:
    """What of the value is not in the other one, which may have more fields."""
    if isinstance(value, dict) and isinstance(other, dict):
        for key, inner in value.items():
            yield from lost(inner, other.get(key), f"{place}.{key}")
    elif isinstance(value, list) and isinstance(other, list) and len(value) == len(other):
        for number, pair in enumerate(zip(value, other, strict=True)):
            yield from lost(*pair, f"{place}.{number}")
    elif value != other:
        yield place


class Manifest(unittest.TestCase):
    """What sidecar.yaml says, and that it fits the image and the proxy."""

    def setUp(self) -> None:
        documents: list[Any] = read(MANIFEST)
        self.deployment, self.claim = documents
        self.pod = self.deployment["spec"]["template"]["spec"]
        self.volumes = {volume["name"]: volume for volume in self.pod["volumes"]}
        self.containers = {container["name"]: container for container in self.pod["containers"]}
        self.agent, self.proxy = (self.containers[name] for name in ("leasekeep", "vault-proxy"))

    def paths(self, container: dict[str, Any]) -> dict[str, str]:
        """Where each volume is mounted."""
        return {mount["name"]: mount["mountPath"] for mount in container["volumeMounts"]}

    def test_each_field_is_one_of_kubernetes(self) -> None:
        self.assertEqual([*faults(self.deployment, DEPLOYMENT), *faults(self.claim, CLAIM)], [])
        self.assertEqual((self.deployment["apiVersion"], self.deployment["kind"]), ("apps/v1", "Deployment"))
        self.assertEqual((self.claim["apiVersion"], self.claim["kind"]), ("v1", "PersistentVolumeClaim"))

    @unittest.skipIf(shutil.which("kubectl") is None, "kubectl is not installed")
    def test_kubectl_knows_each_field_and_its_kind(self) -> None:
        """It reads the pod's controller into types of its own, and writes what it knows."""
        words = ["kubectl", "set", "image", "--local", "-f", "-", "app=other:1", "-o", "json"]
        written = subprocess.run(words, input=json.dumps(self.deployment), capture_output=True, text=True, timeout=60 * SLOWER)
        self.assertEqual(written.returncode, 0, written.stderr)
        self.containers["app"]["image"] = "other:1"
        self.assertEqual(list(lost(self.deployment, json.loads(written.stdout))), [])

    @unittest.skipIf(importlib.util.find_spec("yaml") is None, "python3-yaml is not installed")
    def test_a_reader_of_all_of_yaml_reads_the_same(self) -> None:
        yaml = importlib.import_module("yaml")
        self.assertEqual(list(yaml.safe_load_all(MANIFEST)), read(MANIFEST))

    def test_its_names_agree(self) -> None:
        spec = self.deployment["spec"]
        self.assertEqual(spec["selector"]["matchLabels"], spec["template"]["metadata"]["labels"])
        mounted = {mount["name"] for container in self.containers.values() for mount in container.get("volumeMounts", [])}
        self.assertEqual(mounted, set(self.volumes))
        self.assertEqual(self.volumes["state"]["persistentVolumeClaim"]["claimName"], self.claim["metadata"]["name"])
        for kind, name in (("secret generic", self.volumes["inventory"]["secret"]["secretName"]),
                           ("configmap", self.volumes["vault-proxy-files"]["configMap"]["name"])):
            self.assertIn(f"kubectl create {kind} {name} ", MANIFEST)

    def test_only_the_agent_s_group_reads_the_secret(self) -> None:
        self.assertEqual(self.volumes["inventory"]["secret"]["defaultMode"], 0o440)
        self.assertEqual(self.agent["securityContext"]["runAsGroup"], self.pod["securityContext"]["fsGroup"])
        readers = [name for name, container in self.containers.items() if "inventory" in str(container.get("volumeMounts"))]
        self.assertEqual(readers, ["leasekeep"])

    def test_the_agent_is_the_image(self) -> None:
        context = self.agent["securityContext"]
        self.assertIn(f"\nUSER {context['runAsUser']}:{context['runAsGroup']}\n", DOCKERFILE)
        self.assertEqual(self.agent["image"].rpartition(":")[2], VERSION)
        self.assertEqual(self.agent["args"], words_of("CMD"))
        self.assertEqual(sorted(self.paths(self.agent).values()), sorted(words_of("VOLUME")))
        port = self.agent["ports"][0]["containerPort"]
        self.assertIn(f"\nEXPOSE {port}\n", DOCKERFILE)
        self.assertTrue(self.agent["args"][-1].endswith(f":{port}"))
        self.assertEqual(self.deployment["spec"]["template"]["metadata"]["annotations"]["prometheus.io/port"], str(port))

    def test_the_proxy_serves_the_socket_that_the_agent_asks(self) -> None:
        environment = {variable["name"]: variable["value"] for variable in self.proxy["env"]}
        self.assertEqual(environment["PROXY_SOCKET"], self.agent["args"][2])
        self.assertEqual(self.paths(self.proxy)["vault-proxy"], self.paths(self.agent)["vault-proxy"])
        self.assertTrue(environment["PROXY_SOCKET"].startswith(self.paths(self.agent)["vault-proxy"] + "/"))
        wanted = set(re.findall(r'"\S*\$\{(\w+)\}"', (TOP / "packaging" / "proxy" / "haproxy.cfg").read_text()))
        self.assertLessEqual(wanted, set(environment))
        for file in (environment["VAULT_CA"], self.proxy["args"][-1]):
            folder, _, name = file.rpartition("/")
            self.assertEqual(folder, self.paths(self.proxy)["vault-proxy-files"])
            self.assertIn(f"--from-file={name}", MANIFEST)
        users = [container["securityContext"]["runAsUser"] for container in (self.agent, self.proxy)]
        groups = {container["securityContext"]["runAsGroup"] for container in (self.agent, self.proxy)}
        self.assertEqual((len(set(users)), len(groups)), (2, 1))


class Behind(unittest.TestCase):
    """What behind.yaml says: the same agent and proxy, behind the one in front, on other nodes."""

    def setUp(self) -> None:
        first, _ = read(MANIFEST)
        (behind,) = read(BEHIND)
        self.first: Any = first
        self.behind: Any = behind

    def test_each_field_is_one_of_kubernetes(self) -> None:
        self.assertEqual(list(faults(self.behind, DEPLOYMENT)), [])
        self.assertEqual((self.behind["apiVersion"], self.behind["kind"]), ("apps/v1", "Deployment"))

    def test_it_differs_from_the_one_in_front_in_these_alone(self) -> None:
        first, behind = (one["spec"]["template"]["spec"] for one in (self.first, self.behind))
        (apart,) = behind.pop("affinity")["podAntiAffinity"]["requiredDuringSchedulingIgnoredDuringExecution"]
        self.assertEqual(behind["containers"][0]["args"].pop(), "--behind")
        first["containers"] = first["containers"][1:]
        for pod in (first, behind):
            self.assertEqual([volume["name"] for volume in pod["volumes"]].index("state"), 1)
            del pod["volumes"][1]
        self.assertEqual(first, behind)
        labels = [one["spec"]["template"]["metadata"]["labels"]["app"] for one in (self.first, self.behind)]
        self.assertEqual(apart["labelSelector"]["matchExpressions"], [{"key": "app", "operator": "In", "values": labels}])
        self.assertEqual(self.behind["spec"]["selector"]["matchLabels"], self.behind["spec"]["template"]["metadata"]["labels"])


class Misspelt(unittest.TestCase):
    """What the checks above would say of a manifest that is wrong."""

    def test_each_slip_is_seen(self) -> None:
        for right, wrong in (("mountPath: /run/leasekeep\n", "mountpath: /run/leasekeep\n"), ("defaultMode: 0440", 'defaultMode: "0440"'),
                             ("replicas: 1\n", ""), ("readOnly: true", "readOnly: yes")):
            with self.subTest(wrong=wrong):
                self.assertIn(right, MANIFEST)
                deployment, _ = read(MANIFEST.replace(right, wrong))
                self.assertNotEqual(list(faults(deployment, DEPLOYMENT)), [])
        for right, wrong in (("  replicas: 1", "   replicas: 1"), ("fsGroup: 65532", "fsGroup: 65532\n        fsGroup: 1"),
                             ("cpu: 10m", "cpu: &x 10m"), ("medium: Memory", "medium:Memory")):
            with self.subTest(wrong=wrong), self.assertRaises(ValueError):
                self.assertIn(right, MANIFEST)
                read(MANIFEST.replace(right, wrong))


if __name__ == "__main__":
    unittest.main()
