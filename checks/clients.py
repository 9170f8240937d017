"""Real requests of boto3, and of the AWS CLI where it is installed, against a server on the loopback address.

python3 checks/clients.py PORT
"""

import json
import sys
import threading
import time
from decimal import Decimal

import boto3
from boto3.dynamodb.conditions import Attr, Key
from botocore.config import Config
from botocore.exceptions import ClientError
from cli import dynamodb, version_of_cli

PORT = int(sys.argv[1])
SETTINGS = dict(
    endpoint_url=f"http://127.0.0.1:{PORT}",
    region_name="local",
    aws_access_key_id="any",
    aws_secret_access_key="any",
    config=Config(connect_timeout=120, read_timeout=120, retries={"max_attempts": 3}),
)
failures = []


def wants(name, got, wanted):
    if got != wanted:
        failures.append(f"{name}: got {got!r}, not {wanted!r}")


def error_of(call, **arguments):
    try:
        call(**arguments)
    except ClientError as error:
        return error.response["Error"]["Code"]
    return None


client = boto3.client("dynamodb", **SETTINGS)
keys = [{"AttributeName": "Artist", "KeyType": "HASH"}, {"AttributeName": "Year", "KeyType": "RANGE"}]
kinds = [
    {"AttributeName": "Artist", "AttributeType": "S"},
    {"AttributeName": "Year", "AttributeType": "N"},
]
made = client.create_table(
    TableName="Music", KeySchema=keys, AttributeDefinitions=kinds, BillingMode="PAY_PER_REQUEST"
)
wants("create_table", made["TableDescription"]["TableStatus"], "ACTIVE")
client.get_waiter("table_exists").wait(TableName="Music")
wants("describe_table", client.describe_table(TableName="Music")["Table"]["TableName"], "Music")
wants(
    "a second one",
    error_of(client.create_table, TableName="Music", KeySchema=keys, AttributeDefinitions=kinds),
    "ResourceInUseException",
)
wants(
    "no such table",
    error_of(client.get_item, TableName="Musik", Key={"Artist": {"S": "a"}, "Year": {"N": "1"}}),
    "ResourceNotFoundException",
)
wants(
    "a bad key",
    error_of(client.put_item, TableName="Music", Item={"Artist": {"S": ""}, "Year": {"N": "1"}}),
    "ValidationException",
)

table = boto3.resource("dynamodb", **SETTINGS).Table("Music")
song = {
    "Artist": "No One You Know",
    "Year": Decimal("1999"),
    "Awards": Decimal("-125.5"),
    "Cover": b"\x00\x01\xff",
    "Live": False,
    "Label": None,
    "Places": {"a", "b"},
    "Stars": {Decimal("9"), Decimal("-1")},
    "Songs": ["One", Decimal("2"), {"deep": [True]}],
}
table.put_item(Item=song)
got = table.get_item(Key={"Artist": "No One You Know", "Year": 1999}, ConsistentRead=True)["Item"]
got["Cover"] = bytes(got["Cover"])
wants("an item of all kinds", got, song)
wants("none there", "Item" in table.get_item(Key={"Artist": "x", "Year": 1}), False)

for n in range(200):
    table.put_item(Item={"Artist": f"a{n % 7}", "Year": n})
wants("the last of 200", table.get_item(Key={"Artist": "a3", "Year": 199})["Item"]["Year"], 199)
years = [n for n in range(200) if n % 7 == 3]
some = Key("Artist").eq("a3") & Key("Year").between(20, 100)
wants(
    "a query by range, backward",
    [int(item["Year"]) for item in table.query(KeyConditionExpression=some, ScanIndexForward=False)["Items"]],
    [year for year in reversed(years) if 20 <= year <= 100],
)
pages = client.get_paginator("query").paginate(
    TableName="Music",
    KeyConditionExpression="Artist = :a",
    FilterExpression="#y > :y",
    ExpressionAttributeNames={"#y": "Year"},
    ExpressionAttributeValues={":a": {"S": "a3"}, ":y": {"N": "50"}},
    PaginationConfig={"PageSize": 4},
)
found = [[int(item["Year"]["N"]) for item in page["Items"]] for page in pages]
wants("a query page by page", [year for page in found for year in page], [year for year in years if year > 50])
wants("its pages", max(len(page) for page in found) <= 4 and len(found) > 5, True)
whole = client.get_paginator("scan").paginate(TableName="Music", PaginationConfig={"PageSize": 9}).build_full_result()
parts = [table.scan(Segment=n, TotalSegments=4)["Items"] for n in range(4)]
wants("a scan page by page", len(whole["Items"]), 201)
wants("a scan in four segments", sum(len(part) for part in parts), 201)
wants("how many there are", table.scan(Select="COUNT")["Count"], 201)
wants(
    "a condition that asks for no HASH value",
    error_of(table.query, KeyConditionExpression=Key("Year").eq(1)),
    "ValidationException",
)

key = {"Artist": "Acme", "Year": 1}
table.put_item(Item={**key, "Awards": 2}, ConditionExpression=Attr("Artist").not_exists())
wants(
    "a condition that fails",
    error_of(table.put_item, Item={**key, "Awards": 0}, ConditionExpression=Attr("Awards").lt(2)),
    "ConditionalCheckFailedException",
)
updated = table.update_item(
    Key=key,
    UpdateExpression="SET Songs = list_append(if_not_exists(Songs, :none), :more), #l = :label ADD Awards :one",
    ConditionExpression=Attr("Awards").eq(2),
    ExpressionAttributeNames={"#l": "Label"},
    ExpressionAttributeValues={":none": [], ":more": ["One"], ":label": {"City": "Oslo"}, ":one": 1},
    ReturnValues="UPDATED_NEW",
)
wants("update_item", updated["Attributes"], {"Songs": ["One"], "Label": {"City": "Oslo"}, "Awards": 3})
parts = table.get_item(Key=key, ProjectionExpression="#l.City, Songs[0]", ExpressionAttributeNames={"#l": "Label"})
wants("parts of an item", parts["Item"], {"Label": {"City": "Oslo"}, "Songs": ["One"]})
wants(
    "an update of a key",
    error_of(table.update_item, Key=key, UpdateExpression="SET Artist = :a", ExpressionAttributeValues={":a": "b"}),
    "ValidationException",
)

# The older interface: members that stand in the place of expressions.
old = {"Artist": "Older", "Year": 1}
table.put_item(Item={**old, "Awards": 2}, Expected={"Artist": {"Exists": False}})
wants(
    "entries that don't hold",
    error_of(table.put_item, Item={**old, "Awards": 9}, Expected={"Awards": {"Value": 3}, "Label": {"Exists": False}}),
    "ConditionalCheckFailedException",
)
updated = table.update_item(
    Key=old,
    AttributeUpdates={
        "Awards": {"Action": "ADD", "Value": 1},
        "Songs": {"Action": "ADD", "Value": {"One", "Two"}},
        "Label": {"Action": "DELETE"},
    },
    Expected={
        "Awards": {"ComparisonOperator": "BETWEEN", "AttributeValueList": [2, 5]},
        "Label": {"ComparisonOperator": "NOT_NULL"},
    },
    ConditionalOperator="OR",
    ReturnValues="UPDATED_NEW",
)
wants("attribute_updates", updated["Attributes"], {"Awards": 3, "Songs": {"One", "Two"}})
wants("attributes_to_get", table.get_item(Key=old, AttributesToGet=["Awards"])["Item"], {"Awards": 3})
wants(
    "key_conditions",
    [
        int(item["Year"])
        for item in table.query(
            KeyConditions={
                "Artist": {"ComparisonOperator": "EQ", "AttributeValueList": ["a3"]},
                "Year": {"ComparisonOperator": "GE", "AttributeValueList": [150]},
            },
            QueryFilter={"Year": {"ComparisonOperator": "NE", "AttributeValueList": [years[-1]]}},
            AttributesToGet=["Year"],
        )["Items"]
    ],
    [year for year in years[:-1] if year >= 150],
)
wants(
    "scan_filter",
    table.scan(ScanFilter={"Songs": {"ComparisonOperator": "CONTAINS", "AttributeValueList": ["Two"]}})["Count"],
    1,
)
wants(
    "an entry beside an expression",
    error_of(
        table.put_item,
        Item=old,
        Expected={"Awards": {"Value": 3}},
        ConditionExpression=Attr("Awards").eq(3),
    ),
    "ValidationException",
)
table.delete_item(Key=old, Expected={"Awards": {"Value": 3}})
wants("delete_item by its entries", "Item" in table.get_item(Key=old), False)

with table.batch_writer(overwrite_by_pkeys=["Artist", "Year"]) as batch:
    for n in range(60):
        batch.put_item(Item={"Artist": "batch", "Year": n})
    batch.delete_item(Key={"Artist": "batch", "Year": 7})
in_batch = Key("Artist").eq("batch")
wants("a batch_writer", table.query(KeyConditionExpression=in_batch, Select="COUNT")["Count"], 59)
asked = {"Keys": [{"Artist": "batch", "Year": n} for n in range(90, -10, -1)], "ProjectionExpression": "#y"}
asked["ExpressionAttributeNames"] = {"#y": "Year"}
batch = boto3.resource("dynamodb", **SETTINGS).batch_get_item(RequestItems={"Music": asked})
wants("batch_get_item", [item["Year"] for item in batch["Responses"]["Music"]], [n for n in range(59, -1, -1) if n != 7])
wants("all of it", batch["UnprocessedKeys"], {})
twice = {"Keys": [{"Artist": {"S": "batch"}, "Year": {"N": year}} for year in ("1", "1.0")]}
wants("a key that stands twice", error_of(client.batch_get_item, RequestItems={"Music": twice}), "ValidationException")

streams = boto3.client("dynamodbstreams", **SETTINGS)
client.create_table(
    TableName="Followed",
    KeySchema=[{"AttributeName": "k", "KeyType": "HASH"}],
    AttributeDefinitions=[{"AttributeName": "k", "AttributeType": "S"}],
    BillingMode="PAY_PER_REQUEST",
    StreamSpecification={"StreamEnabled": True, "StreamViewType": "NEW_AND_OLD_IMAGES"},
)
arn = client.describe_table(TableName="Followed")["Table"]["LatestStreamArn"]
wants("list_streams", [s["StreamArn"] for s in streams.list_streams(TableName="Followed")["Streams"]], [arn])
wants("streams of a table without one", streams.list_streams(TableName="Music")["Streams"], [])
described = streams.describe_stream(StreamArn=arn)["StreamDescription"]
wants("describe_stream", (described["StreamStatus"], described["TableName"]), ("ENABLED", "Followed"))
SHARD = described["Shards"][0]["ShardId"]


def place(**kind):
    return streams.get_shard_iterator(StreamArn=arn, ShardId=SHARD, **kind)["ShardIterator"]


def follow(iterator, limit):
    """The records from there on, page by page, and the iterator from which to go on later."""
    records = []
    while True:
        page = streams.get_records(ShardIterator=iterator, Limit=limit)
        if not page["Records"]:
            return records, page["NextShardIterator"]
        records += page["Records"]
        iterator = page["NextShardIterator"]


kept = place(ShardIteratorType="TRIM_HORIZON")
followed = boto3.resource("dynamodb", **SETTINGS).Table("Followed")
for n in range(5):
    followed.put_item(Item={"k": "a", "n": n})
followed.put_item(Item={"k": "a", "n": 4})
records, kept = follow(kept, 2)
wants("records of five puts", [r["eventName"] for r in records], ["INSERT"] + 4 * ["MODIFY"])
wants("their new items", [r["dynamodb"]["NewImage"]["n"]["N"] for r in records], [str(n) for n in range(5)])
wants("the old item of the last", records[-1]["dynamodb"]["OldImage"]["n"]["N"], "3")
wants("their numbers rise", sorted(r["eventID"] for r in records), [r["eventID"] for r in records])
wants("nothing new", follow(kept, 2), ([], kept))
latest = place(ShardIteratorType="LATEST")
followed.delete_item(Key={"k": "a"})
records, kept = follow(kept, 1000)
wants("the reader goes on", [(r["eventName"], r["dynamodb"]["Keys"]) for r in records], [("REMOVE", {"k": {"S": "a"}})])
wants("from the latest on", follow(latest, 1000), (records, kept))
number = records[0]["dynamodb"]["SequenceNumber"]
wants("at a number", follow(place(ShardIteratorType="AT_SEQUENCE_NUMBER", SequenceNumber=number), 9)[0], records)
wants("after it", follow(place(ShardIteratorType="AFTER_SEQUENCE_NUMBER", SequenceNumber=number), 9), ([], kept))
wants("a bad iterator", error_of(streams.get_records, ShardIterator="x"), "ValidationException")
client.delete_table(TableName="Followed")
wants("a stream that is gone", error_of(streams.get_records, ShardIterator=kept), "ResourceNotFoundException")
wants("and its name", error_of(streams.describe_stream, StreamArn=arn), "ResourceNotFoundException")


def put_some(first):
    mine = boto3.client("dynamodb", **SETTINGS)
    for n in range(10):
        mine.put_item(TableName="Music", Item={"Artist": {"S": f"t{first}"}, "Year": {"N": str(n)}})
        mine.update_item(
            TableName="Music",
            Key={"Artist": {"S": "counter"}, "Year": {"N": "0"}},
            UpdateExpression="ADD Raised :one",
            ExpressionAttributeValues={":one": {"N": "1"}},
        )


threads = [threading.Thread(target=put_some, args=(n,)) for n in range(8)]
for thread in threads:
    thread.start()
for thread in threads:
    thread.join()
for n in range(8):
    key = {"Artist": {"S": f"t{n}"}, "Year": {"N": "9"}}
    wants(f"thread {n}", "Item" in client.get_item(TableName="Music", Key=key), True)

wants("a counter of eight threads", table.get_item(Key={"Artist": "counter", "Year": 0})["Item"]["Raised"], 80)

for name in ("Abc", "Bcd", "Cde"):
    client.create_table(
        TableName=name,
        KeySchema=[{"AttributeName": "k", "KeyType": "HASH"}],
        AttributeDefinitions=[{"AttributeName": "k", "AttributeType": "S"}],
        BillingMode="PAY_PER_REQUEST",
    )
pages = client.get_paginator("list_tables").paginate(PaginationConfig={"PageSize": 2})
names = [name for page in pages for name in page["TableNames"]]
wants("tables by pages", [n for n in names if n != "Tab"], ["Abc", "Bcd", "Cde", "Music"])
wants(
    "delete_table",
    client.delete_table(TableName="Abc")["TableDescription"]["TableStatus"],
    "DELETING",
)
client.get_waiter("table_not_exists").wait(TableName="Abc")

# Time to live. Each request is a connection here (PER is 1), and behind every 64th one the server deletes what is over.
client.create_table(
    TableName="Timed",
    KeySchema=[{"AttributeName": "k", "KeyType": "HASH"}],
    AttributeDefinitions=[{"AttributeName": "k", "AttributeType": "S"}],
    BillingMode="PAY_PER_REQUEST",
    StreamSpecification={"StreamEnabled": True, "StreamViewType": "OLD_IMAGE"},
)
arn = client.describe_table(TableName="Timed")["Table"]["LatestStreamArn"]
timed = boto3.resource("dynamodb", **SETTINGS).Table("Timed")
ON = {"AttributeName": "until", "Enabled": True}
DESCRIBED = {"AttributeName": "until", "TimeToLiveStatus": "ENABLED"}
SERVICE = {"PrincipalId": "dynamodb.amazonaws.com", "Type": "Service"}
FIVE_YEARS = 157_680_000


def set_time(specification):
    return client.update_time_to_live(TableName="Timed", TimeToLiveSpecification=specification)


def described():
    return client.describe_time_to_live(TableName="Timed")["TimeToLiveDescription"]


def pass_64():
    """64 connections, of which one has a number that is a multiple of 64."""
    for _ in range(64):
        client.list_tables(Limit=1)


def left():
    return sorted(item["k"] for item in timed.scan()["Items"])


wants("no time to live yet", described(), {"TimeToLiveStatus": "DISABLED"})
wants("update_time_to_live", set_time(ON)["TimeToLiveSpecification"], ON)
wants("a second one", error_of(set_time, specification=ON), "ValidationException")
wants("describe_time_to_live", described(), DESCRIBED)
now = int(time.time())
times = {"over": now - 60, "of six years ago": now - FIVE_YEARS - 60, "to come": now + 3600, "a text": str(now - 60)}
for name, until in times.items():
    timed.put_item(Item={"k": name, "until": until})
timed.put_item(Item={"k": "none"})
pass_64()
STAYING = ["a text", "none", "of six years ago", "to come"]
wants("items that stay", left(), STAYING)
records, _ = follow(place(ShardIteratorType="TRIM_HORIZON"), 100)
wants(
    "records of the item that went",
    [(r["eventName"], r.get("userIdentity")) for r in records if r["dynamodb"]["Keys"]["k"]["S"] == "over"],
    [("INSERT", None), ("REMOVE", SERVICE)],
)
wants("no others went", len(records), 6)
OFF = {"AttributeName": "until", "Enabled": False}
wants("update_time_to_live to none", set_time(OFF)["TimeToLiveSpecification"], OFF)
timed.put_item(Item={"k": "over", "until": now - 60})
pass_64()
wants("without a time to live all stay", left(), sorted([*STAYING, "over"]))


def cli(name, *words, table="Timed"):
    return dynamodb(SETTINGS["endpoint_url"], name, "--table-name", table, *words)


def cli_sees_expiry():
    off = {"TimeToLiveDescription": {"TimeToLiveStatus": "DISABLED"}}
    update = ("update-time-to-live", "--time-to-live-specification", "Enabled=true,AttributeName=until")
    wants("the CLI finds no time to live", cli("describe-time-to-live"), (0, off))
    wants("the CLI sets it", cli(*update), (0, {"TimeToLiveSpecification": ON}))
    status, said = cli(*update)
    wants("and not twice", status != 0 and "ValidationException" in said, True)
    wants("the CLI describes it", cli("describe-time-to-live"), (0, {"TimeToLiveDescription": DESCRIBED}))
    item = {"k": {"S": "over by the CLI"}, "until": {"N": str(now - 60)}}
    wants("the CLI puts an item", cli("put-item", "--item", json.dumps(item))[0], 0)
    pass_64()
    status, said = cli("scan")
    wants("the CLI sees what stays", status == 0 and sorted(item["k"]["S"] for item in said["Items"]), STAYING)


# Indexes that come and go. Behind each request the server builds one further, of 64 items.
client.create_table(
    TableName="Grown",
    KeySchema=[{"AttributeName": "k", "KeyType": "HASH"}],
    AttributeDefinitions=[{"AttributeName": "k", "AttributeType": "S"}],
    BillingMode="PAY_PER_REQUEST",
)
grown = boto3.resource("dynamodb", **SETTINGS).Table("Grown")
with grown.batch_writer() as batch:
    for n in range(2000):
        batch.put_item(Item={"k": f"item {n:04}", "group": f"g{n % 10}", "n": n})
GROUPED = [{"AttributeName": "group", "KeyType": "HASH"}, {"AttributeName": "n", "KeyType": "RANGE"}]
GROUPED_KINDS = [{"AttributeName": "group", "AttributeType": "S"}, {"AttributeName": "n", "AttributeType": "N"}]
BY_GROUP = {"IndexName": "ByGroup", "KeySchema": GROUPED, "Projection": {"ProjectionType": "KEYS_ONLY"}}


def add_index():
    updates = [{"Create": BY_GROUP}]
    return client.update_table(
        TableName="Grown", AttributeDefinitions=GROUPED_KINDS, GlobalSecondaryIndexUpdates=updates
    )["TableDescription"]


def drop_index():
    updates = [{"Delete": {"IndexName": "ByGroup"}}]
    return client.update_table(TableName="Grown", GlobalSecondaryIndexUpdates=updates)["TableDescription"]


def statuses(description):
    return [index["IndexStatus"] for index in description.get("GlobalSecondaryIndexes", [])]


def wait_until_active():
    """How many requests it takes, 100 at most."""
    for count in range(100):
        if statuses(client.describe_table(TableName="Grown")["Table"]) == ["ACTIVE"]:
            return count
    return None


def of_group(group):
    pages = client.get_paginator("query").paginate(
        TableName="Grown",
        IndexName="ByGroup",
        KeyConditionExpression="#g = :g",
        ExpressionAttributeNames={"#g": "group"},
        ExpressionAttributeValues={":g": {"S": group}},
        PaginationConfig={"PageSize": 90},
    )
    return [int(item["n"]["N"]) for page in pages for item in page["Items"]]


described_so = add_index()
wants("update_table", (described_so["TableStatus"], statuses(described_so)), ("UPDATING", ["CREATING"]))
wants("an index that is being built isn't read", error_of(of_group, group="g0"), "ValidationException")
wants("nor is another one added", error_of(add_index), "ValidationException")
grown.put_item(Item={"k": "item 0000", "group": "moved", "n": 0})
grown.put_item(Item={"k": "item 2000", "group": "g0", "n": 2000})
grown.delete_item(Key={"k": "item 0010"})
count = wait_until_active()
wants("it is whole behind 32 requests", count is not None and count <= 32, True)
wants("its items", of_group("g0"), list(range(20, 2001, 10)))
wants("those of another group", of_group("g7"), list(range(7, 2000, 10)))
wants("one that moved", of_group("moved"), [0])
wants("all of them", grown.scan(IndexName="ByGroup", Select="COUNT")["Count"], 2000)
wants("without it", statuses(drop_index()), [])
wants("an index that is gone", error_of(of_group, group="g0"), "ValidationException")
wants("and gone once", error_of(drop_index), "ValidationException")


def cli_adds_an_index():
    index = json.dumps([{"Create": BY_GROUP}])
    kinds = ["--attribute-definitions", json.dumps(GROUPED_KINDS)]
    status, said = cli("update-table", *kinds, "--global-secondary-index-updates", index, table="Grown")
    wants("the CLI adds an index", status == 0 and statuses(said["TableDescription"]), ["CREATING"])
    wants("it becomes whole", wait_until_active() is not None, True)
    query = ("--index-name", "ByGroup", "--select", "COUNT", "--key-condition-expression", "#g = :g")
    words = ("--expression-attribute-names", '{"#g":"group"}', "--expression-attribute-values", '{":g":{"S":"g0"}}')
    status, said = cli("query", *query, *words, table="Grown")
    wants("the CLI queries it", status == 0 and said["Count"], 199)
    gone = json.dumps([{"Delete": {"IndexName": "ByGroup"}}])
    status, said = cli("update-table", "--global-secondary-index-updates", gone, table="Grown")
    wants("the CLI drops it", status == 0 and statuses(said["TableDescription"]), [])


version = version_of_cli()
if version:
    cli_sees_expiry()
    cli_adds_an_index()
else:
    print("clients: the AWS CLI is not installed, and its part was skipped")
client.delete_table(TableName="Timed")
client.delete_table(TableName="Grown")

for failure in failures:
    print("clients:", failure)
print(f"clients: boto3 {boto3.__version__}, {version or 'no AWS CLI'}, {len(failures)} failures")
sys.exit(1 if failures else 0)
