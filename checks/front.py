"""Fifty clients of boto3 with kept connections through a front, beside ten that say nothing and ten that send a byte a second.

  front.py PORT         the front's port; it has to end within a quarter of an hour
"""
import os, socket, sys, threading, time
import boto3
from botocore.config import Config

os.environ.setdefault('AWS_ACCESS_KEY_ID', 'any')
os.environ.setdefault('AWS_SECRET_ACCESS_KEY', 'any')
port = int(sys.argv[1])


def client():
    return boto3.client('dynamodb', endpoint_url=f'http://127.0.0.1:{port}', region_name='us-east-1', config=Config(retries={'max_attempts': 0}, read_timeout=300))


one = client()
one.create_table(TableName='Front', BillingMode='PAY_PER_REQUEST', KeySchema=[{'AttributeName': 'k', 'KeyType': 'HASH'}], AttributeDefinitions=[{'AttributeName': 'k', 'AttributeType': 'S'}])
idle = [socket.create_connection(('127.0.0.1', port)) for _ in range(10)]
slow = [socket.create_connection(('127.0.0.1', port)) for _ in range(10)]
over = threading.Event()


def drip():
    for byte in b'POST / HTTP/1.1\r\nHost: x\r\nX-Amz-Target: DynamoDB_20120810.ListTables\r\nContent-Length: 2\r\n\r\n{}':
        for it in slow:
            try:
                it.send(bytes([byte]))
            except OSError:
                pass
        if over.wait(1):
            return


threading.Thread(target=drip, daemon=True).start()
longest, faults = [0.0], []


def work(number):
    db = client()
    try:
        for i in range(10):
            began = time.time()
            db.put_item(TableName='Front', Item={'k': {'S': f'{number}-{i}'}, 'v': {'S': 'x' * 2000}})
            got = db.get_item(TableName='Front', Key={'k': {'S': f'{number}-{i}'}})
            assert got['Item']['v']['S'] == 'x' * 2000
            assert got['ResponseMetadata']['RequestId'], 'no request id'
            longest[0] = max(longest[0], time.time() - began)
    except Exception as error:
        faults.append(error)


began = time.time()
clients = [threading.Thread(target=work, args=(number,)) for number in range(50)]
for it in clients:
    it.start()
for it in clients:
    it.join(400)
assert not faults, faults[:3]
assert not any(it.is_alive() for it in clients), 'a client waits'
# Behind ten that are idle a client would wait for 150 seconds.
assert longest[0] < 100, f'a put and a get took {longest[0]:.1f} s'
big = {'k': {'S': 'big'}, 'v': {'S': 'y' * 390000}}
one.put_item(TableName='Front', Item=big)
assert one.get_item(TableName='Front', Key={'k': {'S': 'big'}})['Item'] == big
over.set()
one.delete_table(TableName='Front')
print(f'front: 1,000 requests of 50 clients in {time.time() - began:.1f} s, a put and its get in {longest[0]:.2f} s at most')
