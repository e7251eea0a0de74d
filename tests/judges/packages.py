"""What the judges need, by Debian's package names."""
import shutil
import subprocess
import sys

PACKAGES = {
    "ffmpeg": "ffmpeg",
    "ffprobe": "ffmpeg",
    "aplay": "alsa-utils",
    "jackd": "jackd2",
    "jack_capture": "jack-capture",
    "jack/jack.h": "libjack-jackd2-dev",
    "clang": "clang",
}


def is_here(tool):
    if not tool.endswith(".h"):
        return shutil.which(tool) is not None
    header = f"#include <{tool}>\n".encode()
    return subprocess.run(["gcc", "-E", "-"], input=header, capture_output=True).returncode == 0


def needed(*tools):
    """Ends the judge where something is not here."""
    for tool in tools:
        if not is_here(tool):
            print(f"{tool} is missing: install Debian's package {PACKAGES[tool]}, or run: make judges-deps")
            sys.exit(77)
