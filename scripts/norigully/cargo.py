"""What Cargo says of packages and binaries, and how nextest calls them."""

import json
import os
import subprocess
from dataclasses import dataclass, field

LIBRARIES = ("lib", "rlib", "dylib", "cdylib", "staticlib", "proc-macro")
# The options of `cargo test` whose value is a word of its own.
WITH_A_VALUE = {
    *("-p", "--package", "--exclude", "--test", "--bin", "--example", "--bench", "-F", "--features", "--profile"),
    *("--target", "--target-dir", "--manifest-path", "--color", "--config", "-Z", "--build-jobs", "--lockfile-path"),
    "-C",
}
# What describes a package for `cargo metadata`, too.
OF_METADATA = {"--manifest-path", "--config", "-Z", "--lockfile-path"}


def binary_id(package, target):
    """nextest's `RustBinaryId`: the package alone for its library, else with the target's name, and its kind but for
    tests."""
    kind, name = target["kind"][0], target["name"]
    if kind in LIBRARIES:
        return package
    return f"{package}::{name}" if kind == "test" else f"{package}::{kind}/{name}"


def package_of(package_id):
    """`path+file:///x/itoa-1.0.1#itoa@1.0.1`, `path+file:///x/itoa#1.0.1` or, of an older cargo, `itoa 1.0.1
    (path..)`."""
    place, found, rest = package_id.partition("#")
    if not found:
        return package_id.split(" ")[0]
    return rest.split("@")[0] if "@" in rest else place.rstrip("/").split("/")[-1]


@dataclass(frozen=True)
class CargoWords:
    """The words behind the options of run-tests: those of Cargo, and the names that tests are asked for by."""

    of_cargo: tuple
    names: tuple

    @staticmethod
    def of(words):
        cargo, names, at = [], [], 0
        while at < len(words):
            count = 2 if words[at] in WITH_A_VALUE else 1
            (cargo if words[at].startswith("-") else names).extend(words[at : at + count])
            at += count
        renamed = ["--jobs" if word == "--build-jobs" else word for word in cargo]
        return CargoWords(tuple(renamed), tuple(names))

    def asks_for(self, name):
        return not self.names or any(part in name for part in self.names)


@dataclass(frozen=True)
class Package:
    """A package: its name, its folder, and what Cargo passes to its tests."""

    name: str
    folder: str
    environment: dict = field(default_factory=dict, hash=False, compare=False)

    @staticmethod
    def all_of(words):
        """The packages of a workspace, by their ids, for the words of a build. Where Cargo does not name them, there
        are none."""
        given, at = [], 0
        while at < len(words):
            count = 2 if words[at] in WITH_A_VALUE else 1
            if words[at].partition("=")[0] in OF_METADATA or words[at] in ("--offline", "--locked", "--frozen"):
                given += words[at : at + count]
            at += count
        ran = subprocess.run(["cargo", "metadata", "--no-deps", "--format-version", "1", *given], capture_output=True)
        if ran.returncode:
            return {}
        return {it["id"]: Package.from_metadata(it) for it in json.loads(ran.stdout)["packages"]}

    @staticmethod
    def from_metadata(it):
        folder = os.path.dirname(it["manifest_path"])
        version, _, _build = it["version"].partition("+")
        numbers, _, pre = version.partition("-")
        major, minor, patch = numbers.split(".")
        values = {
            "NAME": it["name"],
            "VERSION": it["version"],
            "VERSION_MAJOR": major,
            "VERSION_MINOR": minor,
            "VERSION_PATCH": patch,
            "VERSION_PRE": pre,
            "AUTHORS": ":".join(it["authors"]),
        }
        # What a package may leave out is an empty text.
        for key in ("description", "homepage", "repository", "license", "license_file", "rust_version", "readme"):
            values[key.upper()] = it.get(key) or ""
        environment = {f"CARGO_PKG_{key}": value for key, value in values.items()}
        environment |= {"CARGO_MANIFEST_DIR": folder, "CARGO_MANIFEST_PATH": it["manifest_path"]}
        return Package(it["name"], folder, environment)
