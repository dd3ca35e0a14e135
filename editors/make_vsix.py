#!/usr/bin/env python3
"""Makes the extension for VS Code: a zip file of the folder vscode with two files that say what it is.

usage: make_vsix.py OUT

OUT is the file, as estserve.vsix. It has the client's version. Two runs give the same bytes.
"""
import json
import pathlib
import re
import sys
import zipfile
from xml.sax.saxutils import escape, quoteattr

HERE = pathlib.Path(__file__).resolve().parent
CLIENT = HERE.parent / "clients" / "estserve_client" / "__init__.py"
TYPES = {
    ".json": "application/json",
    ".js": "application/javascript",
    ".vsixmanifest": "text/xml",
    ".md": "text/markdown",
}
WHEN = (1980, 1, 1, 0, 0, 0)  # the files' times


def version():
    """The client's version."""
    return re.search(r'^__version__ = "(.+)"$', CLIENT.read_text(), re.MULTILINE)[1]


def content_types():
    """What kind of content each ending has."""
    defaults = "".join(
        f"<Default Extension={quoteattr(end)} ContentType={quoteattr(kind)}/>"
        for end, kind in TYPES.items()
    )
    space = "http://schemas.openxmlformats.org/package/2006/content-types"
    return f'<?xml version="1.0" encoding="utf-8"?>\n<Types xmlns="{space}">{defaults}</Types>\n'


def manifest(package):
    """What the extension is, as the editor's installer reads it."""
    identity = (
        f'Language="en-US" Id={quoteattr(package["name"])} Version={quoteattr(package["version"])}'
    )
    return f"""<?xml version="1.0" encoding="utf-8"?>
<PackageManifest Version="2.0.0" xmlns="http://schemas.microsoft.com/developer/vsx-schema/2011">
  <Metadata>
    <Identity {identity} Publisher={quoteattr(package["publisher"])}/>
    <DisplayName>{escape(package["displayName"])}</DisplayName>
    <Description xml:space="preserve">{escape(package["description"])}</Description>
    <Categories>{escape(",".join(package["categories"]))}</Categories>
    <Properties>
      <Property Id="Microsoft.VisualStudio.Code.Engine" Value={quoteattr(package["engines"]["vscode"])}/>
    </Properties>
  </Metadata>
  <Installation><InstallationTarget Id="Microsoft.VisualStudio.Code"/></Installation>
  <Dependencies/>
  <Assets>
    <Asset Type="Microsoft.VisualStudio.Code.Manifest" Path="extension/package.json" Addressable="true"/>
  </Assets>
</PackageManifest>
"""


def entries():
    """The files of the extension, by their names in the zip."""
    package = {**json.loads((HERE / "vscode" / "package.json").read_text()), "version": version()}
    yield "[Content_Types].xml", content_types().encode()
    yield "extension.vsixmanifest", manifest(package).encode()
    yield "extension/package.json", (json.dumps(package, indent=2) + "\n").encode()
    for path in sorted((HERE / "vscode").rglob("*")):
        if path.is_file() and path.name != "package.json":
            yield f"extension/{path.relative_to(HERE / 'vscode').as_posix()}", path.read_bytes()


def main(words):
    if len(words) != 1:
        sys.exit("usage: make_vsix.py OUT")
    with zipfile.ZipFile(words[0], "w", zipfile.ZIP_DEFLATED) as out:
        for name, data in entries():
            told = zipfile.ZipInfo(name, WHEN)
            told.compress_type, told.external_attr = zipfile.ZIP_DEFLATED, 0o644 << 16
            out.writestr(told, data)


if __name__ == "__main__":
    main(sys.argv[1:])
