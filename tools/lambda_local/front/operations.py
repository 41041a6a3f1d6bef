"""The operations of the Lambda API (the service model from which the AWS SDKs are generated): by which requests they
come, and what to do here in place of those that are not there."""
import re
from typing import Dict, List, NamedTuple, Optional, Pattern

# Each is METHOD, the path with its parameters, and the name. A path may end with a further /.
TABLE = """
POST /2015-03-31/functions/{}/invocations Invoke
POST /2014-11-13/functions/{}/invoke-async InvokeAsync
POST /2021-11-15/functions/{}/response-streaming-invocations InvokeWithResponseStream
GET /2015-03-31/functions ListFunctions
POST /2015-03-31/functions CreateFunction
GET /2015-03-31/functions/{} GetFunction
DELETE /2015-03-31/functions/{} DeleteFunction
PUT /2015-03-31/functions/{}/code UpdateFunctionCode
GET /2015-03-31/functions/{}/configuration GetFunctionConfiguration
PUT /2015-03-31/functions/{}/configuration UpdateFunctionConfiguration
GET /2015-03-31/functions/{}/versions ListVersionsByFunction
POST /2015-03-31/functions/{}/versions PublishVersion
GET /2015-03-31/functions/{}/aliases ListAliases
POST /2015-03-31/functions/{}/aliases CreateAlias
GET /2015-03-31/functions/{}/aliases/{} GetAlias
PUT /2015-03-31/functions/{}/aliases/{} UpdateAlias
DELETE /2015-03-31/functions/{}/aliases/{} DeleteAlias
GET /2015-03-31/functions/{}/policy GetPolicy
POST /2015-03-31/functions/{}/policy AddPermission
DELETE /2015-03-31/functions/{}/policy/{} RemovePermission
GET /2019-09-30/functions/{}/concurrency GetFunctionConcurrency
PUT /2017-10-31/functions/{}/concurrency PutFunctionConcurrency
DELETE /2017-10-31/functions/{}/concurrency DeleteFunctionConcurrency
GET /2019-09-30/functions/{}/provisioned-concurrency GetProvisionedConcurrencyConfig
PUT /2019-09-30/functions/{}/provisioned-concurrency PutProvisionedConcurrencyConfig
DELETE /2019-09-30/functions/{}/provisioned-concurrency DeleteProvisionedConcurrencyConfig
GET /2019-09-25/functions/{}/event-invoke-config GetFunctionEventInvokeConfig
PUT /2019-09-25/functions/{}/event-invoke-config PutFunctionEventInvokeConfig
POST /2019-09-25/functions/{}/event-invoke-config UpdateFunctionEventInvokeConfig
DELETE /2019-09-25/functions/{}/event-invoke-config DeleteFunctionEventInvokeConfig
GET /2019-09-25/functions/{}/event-invoke-config/list ListFunctionEventInvokeConfigs
GET /2021-10-31/functions/{}/url GetFunctionUrlConfig
POST /2021-10-31/functions/{}/url CreateFunctionUrlConfig
PUT /2021-10-31/functions/{}/url UpdateFunctionUrlConfig
DELETE /2021-10-31/functions/{}/url DeleteFunctionUrlConfig
GET /2021-10-31/functions/{}/urls ListFunctionUrlConfigs
GET /2021-07-20/functions/{}/runtime-management-config GetRuntimeManagementConfig
PUT /2021-07-20/functions/{}/runtime-management-config PutRuntimeManagementConfig
GET /2024-08-31/functions/{}/recursion-config GetFunctionRecursionConfig
PUT /2024-08-31/functions/{}/recursion-config PutFunctionRecursionConfig
GET /2020-06-30/functions/{}/code-signing-config GetFunctionCodeSigningConfig
PUT /2020-06-30/functions/{}/code-signing-config PutFunctionCodeSigningConfig
DELETE /2020-06-30/functions/{}/code-signing-config DeleteFunctionCodeSigningConfig
GET /2020-04-22/code-signing-configs ListCodeSigningConfigs
POST /2020-04-22/code-signing-configs CreateCodeSigningConfig
GET /2020-04-22/code-signing-configs/{} GetCodeSigningConfig
PUT /2020-04-22/code-signing-configs/{} UpdateCodeSigningConfig
DELETE /2020-04-22/code-signing-configs/{} DeleteCodeSigningConfig
GET /2020-04-22/code-signing-configs/{}/functions ListFunctionsByCodeSigningConfig
GET /2015-03-31/event-source-mappings ListEventSourceMappings
POST /2015-03-31/event-source-mappings CreateEventSourceMapping
GET /2015-03-31/event-source-mappings/{} GetEventSourceMapping
PUT /2015-03-31/event-source-mappings/{} UpdateEventSourceMapping
DELETE /2015-03-31/event-source-mappings/{} DeleteEventSourceMapping
GET /2018-10-31/layers ListLayers
GET /2018-10-31/layers/{}/versions ListLayerVersions
POST /2018-10-31/layers/{}/versions PublishLayerVersion
GET /2018-10-31/layers/{}/versions/{} GetLayerVersion
DELETE /2018-10-31/layers/{}/versions/{} DeleteLayerVersion
GET /2018-10-31/layers/{}/versions/{}/policy GetLayerVersionPolicy
POST /2018-10-31/layers/{}/versions/{}/policy AddLayerVersionPermission
DELETE /2018-10-31/layers/{}/versions/{}/policy/{} RemoveLayerVersionPermission
GET /2017-03-31/tags/{} ListTags
POST /2017-03-31/tags/{} TagResource
DELETE /2017-03-31/tags/{} UntagResource
GET /2016-08-19/account-settings GetAccountSettings
GET /2025-11-30/capacity-providers ListCapacityProviders
POST /2025-11-30/capacity-providers CreateCapacityProvider
GET /2025-11-30/capacity-providers/{} GetCapacityProvider
PUT /2025-11-30/capacity-providers/{} UpdateCapacityProvider
DELETE /2025-11-30/capacity-providers/{} DeleteCapacityProvider
GET /2025-11-30/capacity-providers/{}/function-versions ListFunctionVersionsByCapacityProvider
GET /2025-11-30/functions/{}/function-scaling-config GetFunctionScalingConfig
PUT /2025-11-30/functions/{}/function-scaling-config PutFunctionScalingConfig
GET /2025-12-01/functions/{}/durable-executions ListDurableExecutionsByFunction
GET /2025-12-01/durable-executions/{} GetDurableExecution
GET /2025-12-01/durable-executions/{}/history GetDurableExecutionHistory
GET /2025-12-01/durable-executions/{}/state GetDurableExecutionState
POST /2025-12-01/durable-executions/{}/checkpoint CheckpointDurableExecution
POST /2025-12-01/durable-executions/{}/stop StopDurableExecution
POST /2025-12-01/durable-execution-callbacks/{}/fail SendDurableExecutionCallbackFailure
POST /2025-12-01/durable-execution-callbacks/{}/heartbeat SendDurableExecutionCallbackHeartbeat
POST /2025-12-01/durable-execution-callbacks/{}/succeed SendDurableExecutionCallbackSuccess
"""
HERE = ("Invoke", "InvokeWithResponseStream", "ListFunctions", "GetFunction", "GetFunctionConfiguration",
        "GetFunctionUrlConfig", "GetFunctionConcurrency", "PutFunctionConcurrency", "DeleteFunctionConcurrency")
OF_API = re.compile(r"/20\d\d-\d\d-\d\d/.*")  # what is a path of the Lambda API, and not of this service's own
CODE = "functions are those of UP.json, which lambda_local up reads when it starts"
VERSIONS = "the only version of a function is $LATEST, and its aliases are those of UP.json"
INSTEAD: Dict[str, str] = {
    "CreateFunction": CODE, "DeleteFunction": CODE, "UpdateFunctionConfiguration": CODE,
    "UpdateFunctionCode": f"{CODE}; lambda_local up --reload takes code that changes",
    "InvokeAsync": "use Invoke with the type Event",
    "ListVersionsByFunction": VERSIONS, "PublishVersion": VERSIONS, "ListAliases": VERSIONS, "CreateAlias": VERSIONS,
    "GetAlias": VERSIONS, "UpdateAlias": VERSIONS, "DeleteAlias": VERSIONS,
    **dict.fromkeys(("GetFunctionEventInvokeConfig", "PutFunctionEventInvokeConfig", "UpdateFunctionEventInvokeConfig",
                     "DeleteFunctionEventInvokeConfig", "ListFunctionEventInvokeConfigs"),
                    'write "asynchronous" into UP.json'),
    **dict.fromkeys(("CreateFunctionUrlConfig", "UpdateFunctionUrlConfig", "DeleteFunctionUrlConfig",
                     "ListFunctionUrlConfigs"), 'write "url" into UP.json'),
    **dict.fromkeys(("ListEventSourceMappings", "CreateEventSourceMapping", "GetEventSourceMapping",
                     "UpdateEventSourceMapping", "DeleteEventSourceMapping"), 'write "queue" into UP.json'),
}


class Operation(NamedTuple):
    name: str
    method: str
    path: "Pattern[str]"


def _operations() -> List[Operation]:
    operations = []
    for line in TABLE.strip().splitlines():
        method, path, name = line.split(" ")
        parts = "([^/]+)".join(map(re.escape, path.split("{}")))
        operations.append(Operation(name, method, re.compile(parts + "/?")))
    return operations


OPERATIONS = _operations()


class OperationCall(NamedTuple):
    name: str
    parameters: List[str]  # as they are in the path


def operation_of(method: str, path: str) -> Optional[OperationCall]:
    """The operation that a request is; none if none is known."""
    for operation in OPERATIONS:
        match = operation.path.fullmatch(path) if operation.method == method else None
        if match:
            return OperationCall(operation.name, list(match.groups()))
    return None


def sentence(method: str, path: str, operation: Optional[OperationCall]) -> str:
    """Why an operation is not there, and what to do."""
    if operation is None:
        return f"lambda_local has no operation {method} {path[:200]}: it has {', '.join(HERE)}"
    instead = INSTEAD.get(operation.name, f"it has {', '.join(HERE)}")
    return f"lambda_local has no {operation.name}: {instead}"
