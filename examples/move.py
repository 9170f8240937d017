#!/usr/bin/env python3
"""Moves tables from one endpoint of DynamoDB's interface to another, or to and from files. It needs boto3 and nothing else.

  move.py copy --from URL --to URL [TABLE ..]      makes each table at the other end, copies its items while writers go on, and compares
  move.py compare --from URL --to URL [TABLE ..]   compares both sides, and says what differs
  move.py save --from URL FOLDER [TABLE ..]        a backup: a folder with two files a table, its description and a line of JSON an item
  move.py load --to URL FOLDER [TABLE ..]          brings such a backup in

Where no table is named, all are meant. URL is an endpoint such as http://127.0.0.1:8000, or `aws` (or `aws:REGION`) for DynamoDB itself. Credentials are
those of boto3's usual places where the endpoint is `aws`; for any other endpoint without some, any are made up.

  --segments N     how many parts of a table are read at once (4)
  --settle N       how many seconds without a change end the following of a stream (2)
  --yes            don't wait for Enter before the end: writers have stopped already, or there are none
  --into           a table may be there at the other end already; without it that is an error

How a table is copied. Where it has a stream, its records are read from the moment before the first item is copied, and made good for at the other end once all
items are: so writers go on meanwhile, and stop for the last seconds alone. Without a stream writers have to stop before. At the end all items of both sides are compared.

Carried over: key, attributes, indexes, stream (its view), time to live where both ends know it, all items. Not carried over: the records that the stream has already, tags,
throughput (a new table is PAY_PER_REQUEST), encryption, backups, policies, replicas. What of these the source has is said.
"""
import argparse, concurrent.futures, decimal, json, os, sys, threading, time, base64
import boto3
from botocore.config import Config
from botocore.exceptions import ClientError, EndpointConnectionError

BATCH = 25


# ---- endpoints

def client(url, service='dynamodb'):
    config = Config(retries={'max_attempts': 10, 'mode': 'standard'}, read_timeout=70, max_pool_connections=16)
    if url == 'aws' or url.startswith('aws:'):
        return boto3.client(service, region_name=url[4:] or None, config=config)
    keys = {} if boto3.Session().get_credentials() else {'aws_access_key_id': 'any', 'aws_secret_access_key': 'any'}
    return boto3.client(service, endpoint_url=url, region_name=boto3.Session().region_name or 'local', config=config, **keys)


def names_of(db, wanted):
    if wanted:
        return wanted
    return [name for page in db.get_paginator('list_tables').paginate() for name in page['TableNames']]


def described(db, table):
    """The description of a table, with its time to live where the endpoint knows of it."""
    about = db.describe_table(TableName=table)['Table']
    try:
        live = db.describe_time_to_live(TableName=table)['TimeToLiveDescription']
        if live.get('TimeToLiveStatus') in ('ENABLED', 'ENABLING'):
            about['TimeToLiveAttribute'] = live['AttributeName']
    except ClientError as error:
        if error.response['Error']['Code'] not in ('UnknownOperationException', 'UnknownOperation', 'InvalidAction'):
            raise
    return about


def lost(about):
    """What of a table isn't carried over."""
    found = []
    if about.get('Replicas'):
        found.append('replicas')
    if about.get('SSEDescription', {}).get('Status') == 'ENABLED':
        found.append('encryption with a key of its own')
    if about.get('DeletionProtectionEnabled'):
        found.append('deletion protection')
    if about.get('ProvisionedThroughput', {}).get('ReadCapacityUnits'):
        found.append('provisioned throughput')
    return found


def made(db, about, into):
    """Makes the table of a description, waits until it is there, and says whether it was made."""
    name = about['TableName']
    index = lambda it: {key: it[key] for key in ('IndexName', 'KeySchema', 'Projection')}
    asked = {'TableName': name, 'KeySchema': about['KeySchema'], 'AttributeDefinitions': about['AttributeDefinitions'], 'BillingMode': 'PAY_PER_REQUEST'}
    for kind in ('LocalSecondaryIndexes', 'GlobalSecondaryIndexes'):
        if about.get(kind):
            asked[kind] = [index(it) for it in about[kind]]
    if about.get('StreamSpecification', {}).get('StreamEnabled'):
        asked['StreamSpecification'] = about['StreamSpecification']
    try:
        db.create_table(**asked)
    except ClientError as error:
        if error.response['Error']['Code'] == 'ResourceInUseException' and into:
            return False
        raise
    db.get_waiter('table_exists').wait(TableName=name, WaiterConfig={'Delay': 1, 'MaxAttempts': 300})
    if about.get('TimeToLiveAttribute'):
        try:
            db.update_time_to_live(TableName=name, TimeToLiveSpecification={'Enabled': True, 'AttributeName': about['TimeToLiveAttribute']})
        except ClientError as error:
            print(f'{name}: the other end takes no time to live ({error.response["Error"]["Code"]}): items that expire are kept there')
    return True


# ---- items

def key_of(about, item):
    return {it['AttributeName']: item[it['AttributeName']] for it in about['KeySchema']}


def plain(value):
    """What an attribute value stands for: numbers by value, sets without an order."""
    (kind, what), = value.items()
    if kind == 'N':
        return kind, decimal.Decimal(what)
    if kind == 'NS':
        return kind, frozenset(map(decimal.Decimal, what))
    if kind in ('SS', 'BS'):
        return kind, frozenset(bytes(it) if kind == 'BS' else it for it in what)
    if kind == 'B':
        return kind, bytes(what)
    if kind == 'L':
        return kind, tuple(map(plain, what))
    if kind == 'M':
        return kind, frozenset((name, plain(it)) for name, it in what.items())
    return kind, what


def plain_item(item):
    return {name: plain(value) for name, value in item.items()}


def pages(db, table, segments, see):
    """Scans a table in segments side by side, and hands each page to `see`."""
    def walk(segment):
        at = {}
        while True:
            page = db.scan(TableName=table, ConsistentRead=True, Segment=segment, TotalSegments=segments, **at)
            if page['Items']:
                see(page['Items'])
            if 'LastEvaluatedKey' not in page:
                return
            at = {'ExclusiveStartKey': page['LastEvaluatedKey']}
    with concurrent.futures.ThreadPoolExecutor(segments) as pool:
        for done in [pool.submit(walk, segment) for segment in range(segments)]:
            done.result()


def write_all(db, table, requests):
    """Writes requests of a batch, and again what the other end left."""
    for start in range(0, len(requests), BATCH):
        left, wait = requests[start:start + BATCH], 0.05
        while left:
            left = db.batch_write_item(RequestItems={table: left}).get('UnprocessedItems', {}).get(table, [])
            if left:
                time.sleep(wait)
                wait = min(2 * wait, 5)


class Progress:
    """A line that says how far it is; the count of items that a description gives may be old, or missing."""

    def __init__(self, what, all_):
        self.what, self.all, self.done, self.began, self.last, self.lock = what, all_, 0, time.time(), 0, threading.Lock()

    def add(self, count):
        with self.lock:
            self.done += count
            if time.time() - self.last > 0.5:
                self.last = time.time()
                self.say('\r' if sys.stderr.isatty() else '\n')

    def say(self, end):
        rate = self.done / max(time.time() - self.began, 0.001)
        part = f' of about {self.all}' if self.all and self.all >= self.done else ''
        if end == '\r':
            width = 30 * self.done // max(self.all, self.done, 1)
            part += ' [' + '#' * width + ' ' * (30 - width) + ']'
        print(f'{self.what}: {self.done}{part} items, {rate:.0f} a second', end=end, file=sys.stderr, flush=True)


# ---- streams

class Follower:
    """The records of a table's stream from now on, in the order of each shard, and of shards behind their parents."""

    def __init__(self, url, arn):
        self.db, self.arn, self.open, self.seen = client(url, 'dynamodbstreams'), arn, {}, set()
        self.shards('LATEST')

    def shards(self, kind):
        at = {}
        while True:
            page = self.db.describe_stream(StreamArn=self.arn, **at)['StreamDescription']
            for shard in page['Shards']:
                name = shard['ShardId']
                if name in self.seen or shard.get('ParentShardId') in self.open:
                    continue
                self.seen.add(name)
                if kind == 'LATEST' and shard.get('SequenceNumberRange', {}).get('EndingSequenceNumber'):
                    continue
                self.open[name] = self.db.get_shard_iterator(StreamArn=self.arn, ShardId=name, ShardIteratorType=kind)['ShardIterator']
            if 'LastEvaluatedShardId' not in page:
                return
            at = {'ExclusiveStartShardId': page['LastEvaluatedShardId']}

    def records(self):
        """What came since the last call; each shard is read to its end of now."""
        found, closed = [], False
        for name in list(self.open):
            while True:
                page = self.db.get_records(ShardIterator=self.open[name], Limit=1000)
                found += page['Records']
                if not page.get('NextShardIterator'):
                    del self.open[name]
                    closed = True
                    break
                self.open[name] = page['NextShardIterator']
                if not page['Records']:
                    break
        if closed:
            self.shards('TRIM_HORIZON')
        return found


def carry(source, target, about, records):
    """Makes changes good for at the other end: of each key the item that the source has now."""
    keys = {}
    for record in records:
        key = record['dynamodb']['Keys']
        keys[repr(sorted(plain_item(key).items(), key=str))] = key
    keys = list(keys.values())
    for start in range(0, len(keys), BATCH):
        some, items = keys[start:start + BATCH], []
        left = {about['TableName']: {'Keys': some, 'ConsistentRead': True}}
        while left:
            page = source.batch_get_item(RequestItems=left)
            items += page['Responses'].get(about['TableName'], [])
            left = page.get('UnprocessedKeys')
        there = [plain_item(key_of(about, it)) for it in items]
        gone = [key for key in some if plain_item(key) not in there]
        write_all(target, about['TableName'], [{'PutRequest': {'Item': it}} for it in items] + [{'DeleteRequest': {'Key': it}} for it in gone])
    return len(keys)


# ---- the four commands

def compare_one(source, target, about, segments):
    """How many items the source has, and how many differ, are missing or are too many at the other end."""
    table, counts, lock = about['TableName'], {'items': 0, 'differ': 0, 'missing': 0, 'there': 0}, threading.Lock()

    def see(items):
        found = {}
        for start in range(0, len(items), 100):
            left = {table: {'Keys': [key_of(about, it) for it in items[start:start + 100]], 'ConsistentRead': True}}
            while left:
                page = target.batch_get_item(RequestItems=left)
                for it in page['Responses'].get(table, []):
                    found[repr(sorted(plain_item(key_of(about, it)).items(), key=str))] = plain_item(it)
                left = page.get('UnprocessedKeys')
        differ = missing = 0
        for it in items:
            other = found.get(repr(sorted(plain_item(key_of(about, it)).items(), key=str)))
            missing += other is None
            differ += other is not None and other != plain_item(it)
        with lock:
            counts['items'] += len(items)
            counts['differ'] += differ
            counts['missing'] += missing

    def count(items):
        with lock:
            counts['there'] += len(items)

    pages(source, table, segments, see)
    pages(target, table, segments, count)
    counts['more'] = counts['there'] - counts['items'] + counts['missing']
    well = not (counts['differ'] or counts['missing'] or counts['more'])
    print(f"{table}: {counts['items']} items; at the other end {counts['missing']} are missing, {counts['differ']} differ, {counts['more']} are too many: "
          + ('equal' if well else 'NOT EQUAL'))
    return well


def copy_one(source, target, about, given):
    table, arn = about['TableName'], about.get('LatestStreamArn')
    has_stream = about.get('StreamSpecification', {}).get('StreamEnabled')
    for it in lost(about):
        print(f'{table}: not carried over: {it}')
    made(target, about, given.into)
    follower = Follower(given.source, arn) if has_stream else None
    if not follower and not given.yes:
        input(f'{table} has no stream: stop what writes to it, then press Enter')
    progress = Progress(table, about.get('ItemCount', 0))

    def see(items):
        write_all(target, table, [{'PutRequest': {'Item': it}} for it in items])
        progress.add(len(items))

    pages(source, table, given.segments, see)
    progress.say('\n')
    if follower:
        caught = 0
        while True:
            count = carry(source, target, about, follower.records())
            caught += count
            if count < 100:
                break
        if not given.yes:
            input(f'{table}: {caught} changes were made good for. Stop what writes to it, then press Enter')
        quiet = time.time()
        while time.time() - quiet < given.settle:
            count = carry(source, target, about, follower.records())
            caught += count
            quiet = time.time() if count else quiet
            time.sleep(0.2)
        print(f'{table}: {caught} changes that came meanwhile were made good for')
    return compare_one(source, target, about, given.segments)


class Bytes(json.JSONEncoder):
    def default(self, it):
        return base64.b64encode(bytes(it)).decode() if isinstance(it, (bytes, bytearray)) else str(it)


def unfolded(value):
    """An attribute value as boto3 wants it, from its JSON: binaries are bytes."""
    (kind, what), = value.items()
    if kind == 'B':
        return {kind: base64.b64decode(what)}
    if kind == 'BS':
        return {kind: [base64.b64decode(it) for it in what]}
    if kind == 'L':
        return {kind: [unfolded(it) for it in what]}
    if kind == 'M':
        return {kind: {name: unfolded(it) for name, it in what.items()}}
    return value


def save_one(source, about, given):
    table, lock = about['TableName'], threading.Lock()
    progress = Progress(table, about.get('ItemCount', 0))
    with open(f'{given.folder}/{table}.items', 'w', encoding='utf-8') as out:
        def see(items):
            text = ''.join(json.dumps(it, cls=Bytes, separators=(',', ':'), ensure_ascii=False) + '\n' for it in items)
            with lock:
                out.write(text)
            progress.add(len(items))
        pages(source, table, given.segments, see)
        out.flush()
        os.fsync(out.fileno())
    # The description comes last: a table that has one was saved whole.
    with open(f'{given.folder}/{table}.table', 'w', encoding='utf-8') as out:
        json.dump({**about, 'ItemCount': progress.done}, out, cls=Bytes, indent=1)
        out.flush()
        os.fsync(out.fileno())
    progress.say('\n')
    return True


def load_one(target, table, given):
    with open(f'{given.folder}/{table}.table', encoding='utf-8') as it:
        about = json.load(it)
    made(target, about, given.into)
    progress, some = Progress(table, about.get('ItemCount', 0)), []
    with open(f'{given.folder}/{table}.items', encoding='utf-8') as lines:
        for line in lines:
            some.append({'PutRequest': {'Item': {name: unfolded(it) for name, it in json.loads(line).items()}}})
            if len(some) == BATCH:
                write_all(target, table, some)
                progress.add(len(some))
                some = []
    write_all(target, table, some)
    progress.add(len(some))
    progress.say('\n')
    if progress.done != about['ItemCount']:
        print(f'{table}: {progress.done} items, where {about["ItemCount"]} were saved')
    return progress.done == about['ItemCount']


def main():
    words = argparse.ArgumentParser(description=__doc__, formatter_class=argparse.RawDescriptionHelpFormatter)
    words.add_argument('command', choices=['copy', 'compare', 'save', 'load'])
    words.add_argument('names', nargs='*', help='tables; of save and load the folder first')
    words.add_argument('--from', dest='source')
    words.add_argument('--to', dest='target')
    words.add_argument('--segments', type=int, default=4)
    words.add_argument('--settle', type=float, default=2)
    words.add_argument('--yes', action='store_true')
    words.add_argument('--into', action='store_true')
    given = words.parse_intermixed_args()
    needs = {'copy': ('source', 'target'), 'compare': ('source', 'target'), 'save': ('source',), 'load': ('target',)}[given.command]
    if any(getattr(given, it) is None for it in needs) or (given.command in ('save', 'load') and not given.names):
        words.error(f'{given.command} needs ' + ' and '.join({'source': '--from', 'target': '--to'}[it] for it in needs) + (' and a folder' if given.command in ('save', 'load') else ''))
    source = client(given.source) if given.source else None
    target = client(given.target) if given.target else None
    try:
        if given.command == 'save':
            given.folder = given.names.pop(0)
            os.makedirs(given.folder, exist_ok=True)
            well = [save_one(source, described(source, it), given) for it in names_of(source, given.names)]
        elif given.command == 'load':
            given.folder = given.names.pop(0)
            tables = given.names or sorted(it[:-6] for it in os.listdir(given.folder) if it.endswith('.table'))
            well = [load_one(target, it, given) for it in tables]
        else:
            do = copy_one if given.command == 'copy' else lambda one, other, about, _: compare_one(one, other, about, given.segments)
            well = [do(source, target, described(source, it), given) for it in names_of(source, given.names)]
    except (ClientError, EndpointConnectionError, OSError) as error:
        sys.exit(f'move: {error}')
    sys.exit(0 if all(well) else 1)


main()
