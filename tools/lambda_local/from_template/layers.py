"""The layers of functions as UP.json has them: those whose content is a folder or a .zip file here."""
import os
from typing import Any, Callable, Dict, List, NamedTuple, Optional

from .messages import excerpt
from .values import Scope, members_of

OF_LAYERS = ("AWS::Serverless::LayerVersion", "AWS::Lambda::LayerVersion")
ASSET = "aws:asset:path"  # (CDK)
# What Lambda finds below /opt by itself (Developer Guide, "Packaging your layer content")
FOLDERS = ("python", "nodejs", "bin", "lib", "java", "ruby", "extensions")
Tell = Callable[[str], object]


class Layer(NamedTuple):
    name: str
    path: str  # as seen from the template's folder
    is_built: bool = True  # else `sam build` makes it of what is at the path


def resource(name: str, scope: Scope) -> Optional[Layer]:
    """A layer of the template's own; none if there is no such layer, or its content is elsewhere."""
    if name in scope.layers:
        return Layer(name, scope.layers[name])
    layer = scope.resources.get(name)
    if not isinstance(layer, dict) or layer.get("Type") not in OF_LAYERS:
        return None
    properties, metadata = members_of(layer, "Properties"), members_of(layer, "Metadata")
    path = metadata.get(ASSET) or properties.get("ContentUri")
    return Layer(name, path, "BuildMethod" not in metadata) if isinstance(path, str) and "://" not in path else None


def layers_of(given: Any, scope: Scope, base: str, tell: Tell) -> List[str]:
    """The paths of a function's layers, seen from the template's folder; what is left out is told."""
    if given is None:
        return []
    if not isinstance(given, list):
        tell(f"ignores its layers: they must be a list, not {excerpt(given)}")
        return []
    return [path for path in (path_of(one, scope, base, tell) for one in given) if path is not None]


def path_of(given: Any, scope: Scope, base: str, tell: Tell) -> Optional[str]:
    name = given.get("Ref") if isinstance(given, dict) and len(given) == 1 else None
    layer = resource(name, scope) if isinstance(name, str) else None
    if layer is None:
        named = scope.evaluate_or_reason(given).value if name is None else name
        tell(f"ignores the layer {excerpt(named or given)}, whose content is not here: unpack it into a folder, and "
             "write that into its \"layers\"")
        return None
    at = os.path.join(base, layer.path)
    if "\0" in layer.path or not (os.path.isdir(at) or os.path.isfile(at) and at.endswith(".zip")):
        tell(f"ignores the layer {layer.name}: {excerpt(layer.path)} is not a folder or .zip file (yet): write it "
             "into its \"layers\" once it is built")
        return None
    if not layer.is_built and not any(os.path.isdir(os.path.join(at, folder)) for folder in FOLDERS):
        tell(f"the layer {layer.name} is built from {excerpt(layer.path)}: build it, and write the built folder, which "
             f"has python, nodejs or bin, into its \"layers\"")
    return layer.path


def of_serverless(whole: Dict[str, Any]) -> Dict[str, str]:
    """The paths of the layers of a serverless.yml, by their logical ids in its CloudFormation."""
    paths = {}
    for key, member in members_of(whole, "layers").items():
        path = members_of({"layer": member}, "layer").get("path")
        if isinstance(path, str):
            key = str(key)
            paths[(key[:1].upper() + key[1:]).replace("-", "Dash").replace("_", "Underscore") + "LambdaLayer"] = path
    return paths
