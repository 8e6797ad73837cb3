"""Platforms: the names that people and images have for one, as containerd takes them."""

from dataclasses import dataclass

_SYSTEMS = frozenset([
    "linux", "windows", "darwin", "freebsd", "netbsd", "openbsd", "dragonfly", "solaris", "illumos", "plan9", "android",
    "js", "wasip1", "aix", "zos",
])
_MACHINES = frozenset([
    "386", "amd64", "arm", "arm64", "loong64", "mips", "mipsle", "mips64", "mips64le", "ppc64", "ppc64le", "riscv64",
    "s390x", "sparc64", "wasm",
])
_OTHER_NAMES = {
    "x86_64": ("amd64", None), "x86-64": ("amd64", None), "i386": ("386", None), "i686": ("386", None),
    "aarch64": ("arm64", None), "armhf": ("arm", "v7"), "armel": ("arm", "v6"),
}
_USUAL_SYSTEM = "linux"
_USUAL_VARIANTS = {"arm64": "v8", "arm": "v7", "amd64": "v1"}  # which images may leave out
_MOST_PARTS = 3


@dataclass(frozen=True)
class Platform:
    """A system, its processor, and which sort of that; parts that aren't named are empty."""

    system: str
    machine: str = ""
    variant: str = ""

    def __str__(self) -> str:
        return "/".join(filter(None, (self.system, self.machine, self.variant)))

    def means(self, other: "Platform") -> bool:
        """Whether it is another one, as far as it says."""
        is_variant = not self.variant or self._whole_variant() == other._whole_variant()
        return self.system == other.system and self.machine in ("", other.machine) and is_variant

    def _whole_variant(self) -> str:
        return self.variant or _USUAL_VARIANTS.get(self.machine, "")


def platform_named(text: str) -> Platform | None:
    """What a text means: `linux/arm64/v8`, `linux/arm64`, `arm64`, `aarch64`, `arm/v7`; nothing if it is none."""
    parts = text.split("/")
    if not all(parts) or len(parts) > _MOST_PARTS:
        return None
    first = parts[0].lower()
    has_system = first in _SYSTEMS or len(parts) == _MOST_PARTS or (
        len(parts) > 1 and first not in _MACHINES and first not in _OTHER_NAMES
    )
    if not has_system:
        parts = [_USUAL_SYSTEM, *parts]
    system, machine, variant = [*parts, "", ""][:_MOST_PARTS]
    machine, usual = _OTHER_NAMES.get(machine.lower(), (machine, None))
    variant = variant or usual or ""
    return Platform(system, machine, f"v{variant}" if variant.isdecimal() else variant)


def is_meant(asked: str, there: str) -> bool:
    """Whether a platform that was asked for is that of an image."""
    one, other = platform_named(asked), platform_named(there)
    return asked == there or (one is not None and other is not None and one.means(other))
