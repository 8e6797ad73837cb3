"""Names that files with keys and credentials have."""

import re
from collections.abc import Mapping, Sequence

MARK = b"PRIVATE KEY-----"
KEY = "a private key"
_SECRETS = "passwords or tokens"
# The last names of paths, `*` for any letters of a name, and what such files have.
_NAMES: Mapping[str, Sequence[str]] = {
    KEY: (
        "id_rsa", "id_dsa", "id_ecdsa", "id_ecdsa_sk", "id_ed25519", "id_ed25519_sk", "ssh_host_*_key", "secring.gpg",
        "private-keys-v1.d/*.key", "*.ppk", "*.p12", "*.pfx", "*.jks", "*.kdbx",
    ),
    _SECRETS: (
        ".env", ".env.*", ".npmrc", ".yarnrc.yml", ".netrc", "_netrc", ".git-credentials", ".pypirc", ".pgpass", ".my.cnf",
        ".htpasswd", ".vault-token", ".terraformrc", ".terraform.d/credentials.tfrc.json", ".s3cfg", ".boto",
        ".aws/credentials", ".aws/config", ".azure/accessTokens.json", ".azure/msal_token_cache.*", ".kube/config",
        "gcloud/application_default_credentials.json", "gcloud/credentials.db", ".docker/config.json", ".dockercfg",
        "containers/auth.json", "gh/hosts.yml", ".m2/settings.xml", ".m2/settings-security.xml", ".gem/credentials",
        ".cargo/credentials", ".cargo/credentials.toml", ".composer/auth.json",
    ),
}
_MARKED = ("*.pem", "*.key")  # are keys only if MARK is in them
_EXAMPLES = ("*.example", "*.sample", "*.template", "*.dist")


def _ending(names: Sequence[str]) -> re.Pattern[str]:
    """Paths that end with one of these."""
    patterns = (re.escape(name).replace(r"\*", "[^/]+") for name in names)
    return re.compile(f"/(?:{'|'.join(patterns)})\\Z")


_FOUND = [(_ending(names), what) for what, names in _NAMES.items()]
_BY_MARK, _HARMLESS = _ending(_MARKED), _ending(_EXAMPLES)


def credential_in(path: str) -> str | None:
    """What a file of this path has by its name, if that is a key or a credential."""
    if _HARMLESS.search(path):
        return None
    return next((what for pattern, what in _FOUND if pattern.search(path)), None)


def may_be_key(path: str) -> bool:
    """Whether a file of this path is a private key if it has the mark of one."""
    return _BY_MARK.search(path) is not None
