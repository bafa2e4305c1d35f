#!/usr/bin/env python3
"""Makes the package of VS Code's extension: tools/pack/vsix.py FILE.vsix

It is a zip with the manifests that the editor reads, in the layout of Microsoft's vsce; the same files give the same
bytes. Before that, editors/vscode/package.json is compared with what the editor documents of extension manifests and of
contribution points, as RULES below; the editor builds its own schema when it runs, so there is no file of it to compare
with. Says what breaks a rule, and then writes nothing and ends with status 1."""
import json
import re
import sys
import zipfile
from pathlib import Path
from xml.sax.saxutils import quoteattr, escape

ROOT = Path(__file__).resolve().parents[2]
FOLDER = ROOT / "editors/vscode"
FILES = ["*.js", "*.json", "README.md", "snippets/*.json", "syntaxes/*.json"]
LICENCES = ["LICENSE-MIT", "LICENSE-APACHE"]
CATEGORIES = {
    "AI", "Azure", "Chat", "Data Science", "Debuggers", "Education", "Extension Packs", "Formatters", "Keymaps", "Language Packs",
    "Linters", "Machine Learning", "Notebooks", "Other", "Programming Languages", "SCM Providers", "Snippets", "Testing",
    "Themes", "Visualization",
}
SCOPES = {"application", "machine", "machine-overridable", "window", "resource", "language-overridable"}
TYPES = {"string": str, "boolean": bool, "integer": int}

# What an object has: for each member its type, or a list with the shape of each of its members. `!` marks what it must have.
RULES = {
    "manifest": {
        "name!": str, "version!": str, "publisher!": str, "engines!": "engines", "displayName": str, "description": str,
        "license": str, "categories": [str], "keywords": [str], "main": "file", "activationEvents": [str],
        "capabilities": "capabilities", "contributes": "contributes",
    },
    "engines": {"vscode!": str},
    "capabilities": {"untrustedWorkspaces": "trust"},
    "trust": {"supported!": str, "description": str, "restrictedConfigurations": [str]},
    "contributes": {
        "languages": ["language"], "grammars": ["grammar"], "snippets": ["snippets"], "commands": ["command"], "menus": "menus",
        "configuration": "configuration", "taskDefinitions": ["task"], "breakpoints": ["breakpoint"], "debuggers": ["debugger"],
        "problemMatchers": ["matcher"],
    },
    "language": {"id!": str, "aliases": [str], "extensions": [str], "configuration": "file"},
    "grammar": {"language": str, "scopeName!": str, "path!": "file"},
    "snippets": {"language!": str, "path!": "file"},
    "command": {"command!": str, "title!": str, "category": str, "icon": str},
    "menus": {"commandPalette": ["item"], "editor/title/run": ["item"]},
    "item": {"command!": str, "when": str, "group": str},
    "configuration": {"title": str, "properties!": {"": "setting"}},
    "setting": {"type!": str, "default": object, "scope": str, "description": str, "enum": [str]},
    "task": {"type!": str, "required": [str], "properties": {"": "property"}},
    "property": {
        "type!": object, "description": str, "default": object, "minimum": int, "maximum": int, "enum": [str], "pattern": str,
    },
    "breakpoint": {"language!": str},
    "debugger": {
        "type!": str, "label": str, "languages": [str], "configurationAttributes": "attributes",
        "initialConfigurations": ["launch"], "configurationSnippets": ["launched"],
    },
    "attributes": {"launch": "launching"},
    "launching": {"required": [str], "properties": {"": "property"}},
    "launch": {"type!": str, "request!": str, "name!": str, "program": str, "stopOnEntry": bool},
    "launched": {"label!": str, "description": str, "body!": "launch"},
    "matcher": {"name!": str, "owner": str, "fileLocation": str, "pattern!": "pattern"},
    "pattern": {"regexp!": str, "file": int, "line": int, "column": int, "severity": int, "message": int},
}


def broken(value, rule, where):
    """How a value breaks a rule, a text each."""
    if rule == "file":
        inside = isinstance(value, str) and (FOLDER / value).is_file()
        return [] if inside else [f"{where}: no file {value}"]
    if isinstance(rule, list):
        if not isinstance(value, list):
            return [f"{where} is no list"]
        return [it for at, member in enumerate(value) for it in broken(member, rule[0], f"{where}[{at}]")]
    if isinstance(rule, dict) or rule in RULES:
        members = RULES[rule] if isinstance(rule, str) else rule
        if not isinstance(value, dict):
            return [f"{where} is no object"]
        return of_object(value, members, where)
    return [] if isinstance(value, rule) else [f"{where} is no {rule.__name__}"]


def of_object(value, members, where):
    """How an object breaks the rules of its members; those of the name `` are for members of any name."""
    rules = {name.rstrip("!"): rule for name, rule in members.items()}
    missing = [f"{where} has no {name[:-1]}" for name in members if name.endswith("!") and name[:-1] not in value]
    unknown = [f"{where} has the unknown member {name}" for name in value if name not in rules and "" not in rules]
    known = [(name, it, rules.get(name, rules.get(""))) for name, it in value.items() if name in rules or "" in rules]
    return missing + unknown + [found for name, it, rule in known for found in broken(it, rule, f"{where}.{name}")]


def fits(setting):
    """Whether a setting or a property has a value of one of its types by default, among those that it may have."""
    kinds = [TYPES.get(it) for it in ([setting["type"]] if isinstance(setting["type"], str) else setting["type"])]
    default = setting.get("default")
    if None in kinds or default is None:
        return None not in kinds
    return type(default) in kinds and default in setting.get("enum", [default])


def meanings(manifest):
    """What the members say of each other, each with whether it is so."""
    has = manifest["contributes"]
    ids = {it["id"] for it in has["languages"]}
    commands = {it["command"] for it in has["commands"]}
    settings = has["configuration"]["properties"]
    launching = [it["configurationAttributes"]["launch"] for it in has["debuggers"]]
    properties = [*settings.values(), *(it for of in [*launching, *has["taskDefinitions"]] for it in of["properties"].values())]
    languages = [it["language"] for name in ("grammars", "snippets", "breakpoints") for it in has[name]]
    languages += [it for debugger in has["debuggers"] for it in debugger["languages"]]
    return [
        ("a name of small letters, digits and dashes", re.fullmatch(r"[a-z0-9][a-z0-9-]*", manifest["name"])),
        ("a publisher of letters, digits and dashes", re.fullmatch(r"[A-Za-z0-9][A-Za-z0-9-]*", manifest["publisher"])),
        ("a version of three numbers", re.fullmatch(r"\d+\.\d+\.\d+", manifest["version"])),
        ("an engine from 1.74 on, which activates by languages and commands", engine(manifest) >= (1, 74)),
        ("categories that there are", set(manifest["categories"]) <= CATEGORIES),
        ("at most 30 keywords", len(manifest["keywords"]) <= 30),
        ("languages that it has", set(languages) <= ids),
        ("endings that begin with a dot", all(end.startswith(".") for it in has["languages"] for end in it["extensions"])),
        ("commands of menus that it has", {it["command"] for menu in has["menus"].values() for it in menu} <= commands),
        ("commands and settings of one beginning", all(it.startswith("tinybasic.") for it in [*commands, *settings])),
        ("each setting told", all("description" in it for it in settings.values())),
        ("scopes that there are", all(it.get("scope", "window") in SCOPES for it in settings.values())),
        ("defaults of their types", all(map(fits, properties))),
        ("restricted settings that it has", set(manifest["capabilities"]["untrustedWorkspaces"]["restrictedConfigurations"]) <= set(settings)),
        ("what is required among the properties", all(set(it["required"]) <= set(it["properties"]) for it in [*launching, *has["taskDefinitions"]])),
        ("beginnings of its own debuggers", set(manifest["activationEvents"]) <= {f"onDebugResolve:{it['type']}" for it in has["debuggers"]}),
        ("patterns that are expressions", all(re.compile(it["pattern"]["regexp"]) for it in has["problemMatchers"])),
    ]


def engine(manifest):
    found = re.fullmatch(r"\^(\d+)\.(\d+)\.\d+", manifest["engines"]["vscode"])
    return tuple(map(int, found.groups())) if found else (0, 0)


def package_manifest(manifest):
    """extension.vsixmanifest, as the editor and its gallery read it."""
    identity = f'Language="en-US" Id={quoteattr(manifest["name"])} Version={quoteattr(manifest["version"])} Publisher={quoteattr(manifest["publisher"])}'
    assets = [("Code.Manifest", "package.json"), ("Services.Content.Details", "README.md"), ("Services.Content.License", "LICENSE.txt")]
    return "\n".join([
        '<?xml version="1.0" encoding="utf-8"?>',
        '<PackageManifest Version="2.0.0" xmlns="http://schemas.microsoft.com/developer/vsx-schema/2011">',
        "  <Metadata>",
        f"    <Identity {identity} />",
        f"    <DisplayName>{escape(manifest['displayName'])}</DisplayName>",
        f'    <Description xml:space="preserve">{escape(manifest["description"])}</Description>',
        f"    <Tags>{escape(','.join(manifest['keywords']))}</Tags>",
        f"    <Categories>{escape(','.join(manifest['categories']))}</Categories>",
        "    <Properties>",
        f'      <Property Id="Microsoft.VisualStudio.Code.Engine" Value={quoteattr(manifest["engines"]["vscode"])} />',
        '      <Property Id="Microsoft.VisualStudio.Code.ExtensionKind" Value="workspace" />',
        "    </Properties>",
        "    <License>extension/LICENSE.txt</License>",
        "  </Metadata>",
        '  <Installation><InstallationTarget Id="Microsoft.VisualStudio.Code" /></Installation>',
        "  <Dependencies />",
        "  <Assets>",
        *(f'    <Asset Type="Microsoft.VisualStudio.{kind}" Path="extension/{name}" Addressable="true" />' for kind, name in assets),
        "  </Assets>",
        "</PackageManifest>",
        "",
    ])


CONTENT_TYPES = """<?xml version="1.0" encoding="utf-8"?>
<Types xmlns="http://schemas.openxmlformats.org/package/2006/content-types">
  <Default Extension=".js" ContentType="application/javascript" />
  <Default Extension=".json" ContentType="application/json" />
  <Default Extension=".md" ContentType="text/markdown" />
  <Default Extension=".txt" ContentType="text/plain" />
  <Default Extension=".vsixmanifest" ContentType="text/xml" />
</Types>
"""


def members(manifest):
    """The files of the package, by their names in it."""
    yield "[Content_Types].xml", CONTENT_TYPES.encode()
    yield "extension.vsixmanifest", package_manifest(manifest).encode()
    for pattern in FILES:
        for file in sorted(FOLDER.glob(pattern)):
            yield f"extension/{file.relative_to(FOLDER)}", file.read_bytes()
    yield "extension/LICENSE.txt", b"\n".join((ROOT / it).read_bytes() for it in LICENCES)


def main(to):
    manifest = json.loads((FOLDER / "package.json").read_text())
    bad = broken(manifest, "manifest", "package.json")
    bad = bad or [f"package.json has not {what}" for what, is_so in meanings(manifest) if not is_so]
    if bad:
        sys.exit("\n".join(bad))
    with zipfile.ZipFile(to, "w", zipfile.ZIP_DEFLATED) as package:
        for name, content in members(manifest):
            package.writestr(zipfile.ZipInfo(name), content, zipfile.ZIP_DEFLATED)


main(*sys.argv[1:])
