# Real requests of version 1 of the AWS SDK for Ruby, by members of the older interface alone, against a server on the loopback address:
# ruby checks/clients.rb PORT.
require 'aws-sdk'

$failures = []

def wants(name, got, wanted)
  $failures << "#{name}: got #{got.inspect}, not #{wanted.inspect}" unless got == wanted
end

def error_of
  yield
  nil
rescue AWS::Errors::Base => error
  error.class.name.split('::').last
end

client = AWS::DynamoDB::Client.new(
  api_version: '2012-08-10',
  endpoint: '127.0.0.1',
  dynamo_db_endpoint: '127.0.0.1',
  dynamo_db_port: Integer(ARGV.fetch(0)),
  use_ssl: false,
  region: 'local',
  dynamo_db_region: 'local',
  access_key_id: 'any',
  secret_access_key: 'any',
  max_retries: 2,
  dynamo_db_crc32: false
)
client.create_table(
  table_name: 'Ruby',
  key_schema: [{ attribute_name: 'k', key_type: 'HASH' }, { attribute_name: 'r', key_type: 'RANGE' }],
  attribute_definitions: [{ attribute_name: 'k', attribute_type: 'S' }, { attribute_name: 'r', attribute_type: 'N' }],
  provisioned_throughput: { read_capacity_units: 1, write_capacity_units: 1 }
)
(1..9).each do |n|
  client.put_item(
    table_name: 'Ruby',
    item: { 'k' => { s: 'a' }, 'r' => { n: n.to_s }, 'v' => { s: 'x' * n } },
    expected: { 'k' => { exists: false } }
  )
end
key = { 'k' => { s: 'a' }, 'r' => { n: '4' } }
wants('a put of what is there', error_of { client.put_item(table_name: 'Ruby', item: key, expected: { 'k' => { exists: false } }) },
      'ConditionalCheckFailedException')
updated = client.update_item(
  table_name: 'Ruby', key: key,
  attribute_updates: { 'n' => { action: 'ADD', value: { n: '2.50' } }, 'v' => { action: 'DELETE' } },
  expected: { 'v' => { value: { s: 'xxxx' } } }, return_values: 'UPDATED_NEW'
)
wants('an update', updated[:attributes], { 'n' => { n: '2.5' } })
wants('a get', client.get_item(table_name: 'Ruby', key: key, attributes_to_get: ['n'])[:item], { 'n' => { n: '2.5' } })
page = client.query(
  table_name: 'Ruby', scan_index_forward: false, limit: 3,
  key_conditions: {
    'k' => { comparison_operator: 'EQ', attribute_value_list: [{ s: 'a' }] },
    'r' => { comparison_operator: 'LT', attribute_value_list: [{ n: '7' }] }
  }
)
wants('a query', page[:member].map { |item| item['r'][:n] }, %w[6 5 4])
wants('its last key', page[:last_evaluated_key]['r'], { n: '4' })
wants('a scan', client.scan(
  table_name: 'Ruby',
  scan_filter: { 'v' => { comparison_operator: 'BEGINS_WITH', attribute_value_list: [{ s: 'xxxxxxx' }] } }
)[:count], 3)
wants('a batch', client.batch_get_item(
  request_items: { 'Ruby' => { keys: [key], attributes_to_get: ['r'] } }
)[:responses]['Ruby'], [{ 'r' => { n: '4' } }])
wants('a key condition on another attribute', error_of do
  client.query(table_name: 'Ruby', key_conditions: { 'v' => { comparison_operator: 'EQ', attribute_value_list: [{ s: 'x' }] } })
end, 'ValidationException')
client.delete_item(table_name: 'Ruby', key: key, expected: { 'n' => { value: { n: '2.5' } } })
wants('a delete', client.get_item(table_name: 'Ruby', key: key)[:item], nil)
client.delete_table(table_name: 'Ruby')

$failures.each { |failure| puts "clients: #{failure}" }
puts "clients: the AWS SDK for Ruby #{AWS::VERSION}, #{$failures.size} failures"
exit($failures.empty? ? 0 : 1)
