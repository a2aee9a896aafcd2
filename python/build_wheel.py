"""Puts jpq.py into a wheel for `pip install ./python`. It is one file of pure Python, so nothing is built, and no other package is
asked for. The wheel has it as a package, as only there `py.typed` can say that it has type hints (PEP 561)."""

import base64
import hashlib
import os
import re
import zipfile

HERE = os.path.dirname(os.path.abspath(__file__))
METADATA = "Metadata-Version: 2.1\nName: jpq\nVersion: {version}\nSummary: {description}\nRequires-Python: {requires}\n"
WHEEL = "Wheel-Version: 1.0\nGenerator: build_wheel\nRoot-Is-Purelib: true\nTag: py3-none-any\n"


def _project():
    """The values of pyproject.toml, which Python 3.8 cannot read by itself."""
    with open(os.path.join(HERE, "pyproject.toml"), encoding="utf-8") as file:
        return dict(re.findall(r'^([a-z-]+) = "(.*)"$', file.read(), re.MULTILINE))


def build_wheel(wheel_directory, config_settings=None, metadata_directory=None):
    """Writes the wheel, and returns its name (PEP 517)."""
    project = _project()
    folder = f"jpq-{project['version']}.dist-info"
    with open(os.path.join(HERE, "jpq.py"), "rb") as file:
        module = file.read()
    metadata = METADATA.format(version=project["version"], description=project["description"], requires=project["requires-python"])
    files = {"jpq/__init__.py": module, "jpq/py.typed": b"", f"{folder}/METADATA": metadata.encode(),
             f"{folder}/WHEEL": WHEEL.encode()}
    record = ""
    for name, content in files.items():
        digest = base64.urlsafe_b64encode(hashlib.sha256(content).digest()).rstrip(b"=").decode()
        record += f"{name},sha256={digest},{len(content)}\n"
    files[f"{folder}/RECORD"] = f"{record}{folder}/RECORD,,\n".encode()
    wheel = f"jpq-{project['version']}-py3-none-any.whl"
    with zipfile.ZipFile(os.path.join(wheel_directory, wheel), "w", zipfile.ZIP_DEFLATED) as archive:
        for name, content in files.items():
            archive.writestr(name, content)
    return wheel
