"""RINEX 3.0x observation files and Compact RINEX 3.0 (Hatanaka's format), over the proved library of rnxcmp.

    import rnxcmp
    compact = rnxcmp.rnx2crx("abcd0010.24o")     # a path, bytes, an open file or a text, to bytes
    rinex = rnxcmp.crx2rnx(compact)
    print(rnxcmp.check(rinex).is_standard)
    print(rnxcmp.explain("abcd0010.24o"))        # why a file is refused or isn't standard; None for a good one
    with rnxcmp.open("abcd0010.24d.gz") as file:  # a stream of RINEX text
        print(file.readline())

Names and arguments are those of the package ``hatanaka``, if it has them. An error of the input raises :class:`RnxcmpError`, each skipped
epoch (``skip_strange_epochs``) issues a :class:`RnxcmpWarning`, and an output longer than ``max_length`` raises :class:`OutputLimitError`.
"""

TYPE_CHECKING = False
if TYPE_CHECKING:
    from ._calls import OutputLimitError, RnxcmpError, RnxcmpWarning, Stream, crx2rnx, rnx2crx, version
    from ._explain import Explanation, explain
    from ._files import compress, decompress
    from ._on_disk import compress_on_disk, decompress_on_disk, get_decompressed_path
    from ._opened import open
    from ._packed import UnsupportedError
    from ._report import Report, check

    __version__: str

__all__ = [
    "Explanation", "OutputLimitError", "Report", "RnxcmpError", "RnxcmpWarning", "Stream", "UnsupportedError", "check", "compress",
    "compress_on_disk", "crx2rnx", "decompress", "decompress_on_disk", "explain", "get_decompressed_path", "open", "rnx2crx", "version",
]  # fmt: skip

_MODULES = {
    "_calls": ("OutputLimitError", "RnxcmpError", "RnxcmpWarning", "Stream", "crx2rnx", "rnx2crx", "version"),
    "_explain": ("Explanation", "explain"),
    "_files": ("compress", "decompress"),
    "_on_disk": ("compress_on_disk", "decompress_on_disk", "get_decompressed_path"),
    "_opened": ("open",),
    "_packed": ("UnsupportedError",),
    "_report": ("Report", "check"),
}


def __dir__() -> "list[str]":
    return sorted({*globals(), *__all__, "__version__"})


def __getattr__(name: str) -> object:
    """Loads a name when it is first used, so that a start takes no longer than the names in use need."""
    from importlib import import_module

    if name == "__version__":
        found: object = import_module("._calls", __name__).version()
    else:
        module = next((module for module, names in _MODULES.items() if name in names), None)
        if module is None:
            raise AttributeError(f"module {__name__!r} has no attribute {name!r}")
        found = getattr(import_module(f".{module}", __name__), name)
    globals()[name] = found
    return found
