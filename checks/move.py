"""Copies a table from one server to another while a writer goes on, with examples/move.py; then saves, loads and compares.

  move.py URL OTHER     the two endpoints; the first gets a table `Moved` with an index and a stream, which the second must not have
"""
import subprocess, sys, threading, time, os
import boto3

os.environ.setdefault('AWS_DEFAULT_REGION', 'us-east-1')
os.environ.setdefault('AWS_ACCESS_KEY_ID', 'any')
os.environ.setdefault('AWS_SECRET_ACCESS_KEY', 'any')
url, other, folder = sys.argv[1:4]
source, target = boto3.client('dynamodb', endpoint_url=url), boto3.client('dynamodb', endpoint_url=other)


def move(*words, wanted=0, enter=False):
    ran = subprocess.Popen([sys.executable, 'examples/move.py', *words], stdin=subprocess.PIPE, stdout=subprocess.PIPE, stderr=subprocess.DEVNULL, text=True)
    if enter:
        time.sleep(3)
        stop.set()
        writing.join()
    said = ran.communicate('\n')[0]
    assert ran.returncode == wanted, f'{words}: status {ran.returncode} and not {wanted}: {said}'
    return said


source.create_table(
    TableName='Moved', BillingMode='PAY_PER_REQUEST',
    KeySchema=[{'AttributeName': 'h', 'KeyType': 'HASH'}, {'AttributeName': 'r', 'KeyType': 'RANGE'}],
    AttributeDefinitions=[{'AttributeName': 'h', 'AttributeType': 'S'}, {'AttributeName': 'r', 'AttributeType': 'N'}, {'AttributeName': 'g', 'AttributeType': 'S'}],
    GlobalSecondaryIndexes=[{'IndexName': 'ByG', 'KeySchema': [{'AttributeName': 'g', 'KeyType': 'HASH'}], 'Projection': {'ProjectionType': 'KEYS_ONLY'}}],
    StreamSpecification={'StreamEnabled': True, 'StreamViewType': 'KEYS_ONLY'})
for i in range(200):
    source.put_item(TableName='Moved', Item={'h': {'S': f'k{i % 7}'}, 'r': {'N': str(i)}, 'b': {'B': bytes([i, 0])}, 's': {'NS': ['1', '2.50']},
                                             'm': {'M': {'a': {'L': [{'BS': [b'x', b'y']}, {'BOOL': True}, {'NULL': True}]}}}})
stop = threading.Event()


def write():
    i = 0
    while not stop.is_set():
        i += 1
        source.put_item(TableName='Moved', Item={'h': {'S': f'w{i % 9}'}, 'r': {'N': str(i)}, 'g': {'S': 'x'}})
        if i % 3 == 0:
            source.delete_item(TableName='Moved', Key={'h': {'S': f'w{(i - 1) % 9}'}, 'r': {'N': str(i - 1)}})
        if i % 5 == 0:
            source.update_item(TableName='Moved', Key={'h': {'S': f'k{i % 7}'}, 'r': {'N': str(i % 200)}}, UpdateExpression='SET z = :z', ExpressionAttributeValues={':z': {'N': str(i)}})
        time.sleep(0.005)


writing = threading.Thread(target=write)
writing.start()
try:
    ends = '--from', url, '--to', other
    assert ': equal' in move('copy', *ends, 'Moved', enter=True)
finally:
    stop.set()
assert ': equal' in move('compare', *ends, 'Moved')
move('copy', *ends, 'Moved', '--yes', wanted=1)
target.delete_item(TableName='Moved', Key={'h': {'S': 'k0'}, 'r': {'N': '0'}})
target.put_item(TableName='Moved', Item={'h': {'S': 'k1'}, 'r': {'N': '1'}})
target.put_item(TableName='Moved', Item={'h': {'S': 'new'}, 'r': {'N': '1'}})
assert '1 are missing, 1 differ, 1 are too many: NOT EQUAL' in move('compare', *ends, 'Moved', wanted=1)
move('save', '--from', url, folder, 'Moved')
target.delete_table(TableName='Moved')
move('load', '--to', other, folder)
assert ': equal' in move('compare', *ends, 'Moved')
source.delete_table(TableName='Moved')
target.delete_table(TableName='Moved')
