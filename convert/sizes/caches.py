"""The places of lists and caches of package managers, and what empties each."""

import re
from dataclasses import dataclass


@dataclass(frozen=True)
class Cache:
    """A directory that a package manager can fill again; `~` is a home directory."""

    name: str
    place: str
    remedy: str


CACHES = (
    Cache("lists of apt", "/var/lib/apt/lists", "rm -rf /var/lib/apt/lists/*"),
    Cache("cache of apt", "/var/cache/apt", "apt-get clean"),
    Cache("cache of apk", "/var/cache/apk", "apk add --no-cache"),
    Cache("cache of apk", "/etc/apk/cache", "apk add --no-cache"),
    Cache("cache of dnf", "/var/cache/dnf", "dnf clean all"),
    Cache("cache of dnf", "/var/cache/libdnf5", "dnf clean all"),
    Cache("cache of yum", "/var/cache/yum", "yum clean all"),
    Cache("cache of zypper", "/var/cache/zypp", "zypper clean --all"),
    Cache("cache of pacman", "/var/cache/pacman/pkg", "pacman -Scc --noconfirm"),
    Cache("cache of pip", "~/.cache/pip", "pip install --no-cache-dir"),
    Cache("cache of uv", "~/.cache/uv", "uv --no-cache"),
    Cache("cache of poetry", "~/.cache/pypoetry", "poetry cache clear --all ."),
    Cache("cache of conda", "/opt/conda/pkgs", "conda clean --all --yes"),
    Cache("cache of npm", "~/.npm/_cacache", "npm cache clean --force"),
    Cache("cache of yarn", "~/.cache/yarn", "yarn cache clean"),
    Cache("cache of yarn", "/usr/local/share/.cache/yarn", "yarn cache clean"),
    Cache("cache of Composer", "~/.composer/cache", "composer clear-cache"),
    Cache("cache of Composer", "~/.cache/composer", "composer clear-cache"),
    Cache("cache of Bundler", "/usr/local/bundle/cache", "rm -rf /usr/local/bundle/cache"),
    Cache("cache of Cargo", "~/.cargo/registry", "rm -rf ~/.cargo/registry"),
    Cache("cache of Cargo", "/usr/local/cargo/registry", "rm -rf /usr/local/cargo/registry"),
    Cache("cache of Go", "~/.cache/go-build", "go clean -cache"),
    Cache("cache of Go", "~/go/pkg/mod/cache", "go clean -modcache"),
    Cache("cache of Go", "/go/pkg/mod/cache", "go clean -modcache"),
    Cache("cache of Gradle", "~/.gradle/caches", "rm -rf ~/.gradle/caches"),
)
_HOME = "(?:/root|/home/[^/]+)"
_PLACES = re.compile("|".join(f"({re.escape(it.place).replace(re.escape('~'), _HOME)})/" for it in CACHES))


def cache_place(path: str) -> str:
    """The directory of the cache that a path is in, or else the path."""
    found = _PLACES.match(path)
    return found.group().removesuffix("/") if found else path


def cache_at(path: str) -> Cache | None:
    """The cache that a file is in, by its path."""
    found = _PLACES.match(path)
    return CACHES[found.lastindex - 1] if found and found.lastindex else None
