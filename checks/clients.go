// Real requests of the AWS SDK for Go (version 1) against a server on the loopback address: clients PORT.
package main

import (
	"errors"
	"fmt"
	"net/http"
	"os"
	"reflect"
	"sort"
	"strconv"
	"strings"
	"sync"
	"time"

	"github.com/aws/aws-sdk-go/aws"
	"github.com/aws/aws-sdk-go/aws/awserr"
	"github.com/aws/aws-sdk-go/aws/credentials"
	"github.com/aws/aws-sdk-go/aws/session"
	"github.com/aws/aws-sdk-go/service/dynamodb"
	"github.com/aws/aws-sdk-go/service/dynamodb/dynamodbattribute"
	"github.com/aws/aws-sdk-go/service/dynamodb/expression"
	"github.com/aws/aws-sdk-go/service/dynamodbstreams"
)

type value = dynamodb.AttributeValue
type item = map[string]*value

var (
	table   = aws.String("GoMusic")
	db      *dynamodb.DynamoDB
	streams *dynamodbstreams.DynamoDBStreams
	passed  int
	failed  int
)

func wants(name string, got, wanted interface{}) {
	if reflect.DeepEqual(got, wanted) {
		passed++
		return
	}
	failed++
	fmt.Printf("go: %s: got %v, not %v\n", name, got, wanted)
}

// must ends the part in which it stands where a call that should succeed didn't.
func must(err error) {
	if err != nil {
		panic(err)
	}
}

// part carries out one part; the others go on where it ends early.
func part(name string, body func()) {
	defer func() {
		if cause := recover(); cause != nil {
			failed++
			fmt.Printf("go: %s ended: %v\n", name, cause)
		}
	}()
	body()
}

// refusal is the name of the exception and the status, or the error's text where the server gave none.
func refusal(err error) string {
	var told awserr.RequestFailure
	if errors.As(err, &told) {
		return fmt.Sprintf("%d %s", told.StatusCode(), told.Code())
	}
	return fmt.Sprint(err)
}

func text(s string) *value { return &value{S: aws.String(s)} }

func number(n int) *value { return &value{N: aws.String(strconv.Itoa(n))} }

func key(artist string, year int) item { return item{"Artist": text(artist), "Year": number(year)} }

func with(in item, name string, v *value) item {
	in[name] = v
	return in
}

func put(in item) {
	_, err := db.PutItem(&dynamodb.PutItemInput{TableName: table, Item: in})
	must(err)
}

func get(artist string, year int) item {
	got, err := db.GetItem(&dynamodb.GetItemInput{TableName: table, Key: key(artist, year)})
	must(err)
	return got.Item
}

func years(items []item) []int {
	found := []int{}
	for _, one := range items {
		year, err := strconv.Atoi(aws.StringValue(one["Year"].N))
		must(err)
		found = append(found, year)
	}
	return found
}

// yearsBy are the numbers below 100 that leave that rest by five.
func yearsBy(rest int) []int {
	found := []int{}
	for n := rest; n < 100; n += 5 {
		found = append(found, n)
	}
	return found
}

func isRecent(moment *time.Time) bool {
	return moment != nil && time.Since(*moment) < time.Hour && time.Since(*moment) > -time.Hour
}

func keySchema(hash string) []*dynamodb.KeySchemaElement {
	return []*dynamodb.KeySchemaElement{
		{AttributeName: aws.String(hash), KeyType: aws.String(dynamodb.KeyTypeHash)},
		{AttributeName: aws.String("Year"), KeyType: aws.String(dynamodb.KeyTypeRange)},
	}
}

func music() *dynamodb.CreateTableInput {
	return &dynamodb.CreateTableInput{
		TableName:   table,
		BillingMode: aws.String(dynamodb.BillingModePayPerRequest),
		KeySchema:   keySchema("Artist"),
		AttributeDefinitions: []*dynamodb.AttributeDefinition{
			{AttributeName: aws.String("Artist"), AttributeType: aws.String("S")},
			{AttributeName: aws.String("Year"), AttributeType: aws.String("N")},
			{AttributeName: aws.String("Label"), AttributeType: aws.String("S")},
		},
		GlobalSecondaryIndexes: []*dynamodb.GlobalSecondaryIndex{{
			IndexName: aws.String("ByLabel"),
			KeySchema: keySchema("Label"),
			Projection: &dynamodb.Projection{
				ProjectionType:   aws.String(dynamodb.ProjectionTypeInclude),
				NonKeyAttributes: aws.StringSlice([]string{"Song"}),
			},
		}},
		StreamSpecification: &dynamodb.StreamSpecification{
			StreamEnabled:  aws.Bool(true),
			StreamViewType: aws.String(dynamodb.StreamViewTypeNewAndOldImages),
		},
	}
}

func makesTable() {
	made, err := db.CreateTable(music())
	must(err)
	wants("CreateTable", aws.StringValue(made.TableDescription.TableStatus), dynamodb.TableStatusActive)
	must(db.WaitUntilTableExists(&dynamodb.DescribeTableInput{TableName: table}))
	described, err := db.DescribeTable(&dynamodb.DescribeTableInput{TableName: table})
	must(err)
	got := described.Table
	wants("DescribeTable", got, made.TableDescription)
	wants("its keys", got.KeySchema, keySchema("Artist"))
	wants("its attributes", got.AttributeDefinitions, music().AttributeDefinitions)
	wants("its moment", isRecent(got.CreationDateTime), true)
	wants("its stream", got.StreamSpecification, music().StreamSpecification)
	by := got.GlobalSecondaryIndexes[0]
	wants("the index's keys", by.KeySchema, keySchema("Label"))
	wants("the index's projection", by.Projection, music().GlobalSecondaryIndexes[0].Projection)
	wants("the index's status", aws.StringValue(by.IndexStatus), dynamodb.IndexStatusActive)
	_, err = db.CreateTable(music())
	var inUse *dynamodb.ResourceInUseException
	wants("a second one", errors.As(err, &inUse), true)
}

func readsAllKinds() {
	wanted := item{
		"Artist": text("of all kinds"),
		"Year":   number(-7),
		"S":      text("å \"quoted\" \\ \u2028 \U0001F3B5 <&>"),
		"N":      {N: aws.String("-125.0625")},
		"Long":   {N: aws.String("12345678901234567890123456789012345678")},
		"B":      {B: []byte{0, 1, 254, 255}},
		"BOOL":   {BOOL: aws.Bool(false)},
		"NULL":   {NULL: aws.Bool(true)},
		"SS":     {SS: aws.StringSlice([]string{"a", "b", "å"})},
		"NS":     {NS: aws.StringSlice([]string{"-1", "0.5", "9"})},
		"BS":     {BS: [][]byte{{0}, {1, 2}, {255}}},
		"L":      {L: []*value{text(""), number(2), {L: []*value{}}, {BOOL: aws.Bool(true)}}},
		"M":      {M: item{"deep": {M: item{"list": {L: []*value{{M: item{}}}}}}, "b": {B: []byte{}}}},
	}
	put(wanted)
	wants("an item of all ten kinds", get("of all kinds", -7), wanted)
	wants("none there", get("of all kinds", 7), item(nil))

	type song struct {
		Artist string
		Year   int
		Stars  []float64         `dynamodbav:",numberset"`
		Places []string          `dynamodbav:",stringset"`
		Notes  map[string][]bool `dynamodbav:"notes"`
		Cover  []byte
	}
	kept := song{
		"of a struct", 1999, []float64{-2.5, 1e20}, []string{"Oslo", "Paris"},
		map[string][]bool{"a": {true, false}}, []byte("\x00\xff"),
	}
	marshaled, err := dynamodbattribute.MarshalMap(kept)
	must(err)
	put(marshaled)
	var got song
	must(dynamodbattribute.UnmarshalMap(get("of a struct", 1999), &got))
	wants("a struct through dynamodbattribute", got, kept)
}

func changesItems() {
	put(with(key("Acme", 1), "Awards", number(2)))
	isLess, err := expression.NewBuilder().WithCondition(expression.Name("Awards").LessThan(expression.Value(2))).Build()
	must(err)
	_, err = db.PutItem(&dynamodb.PutItemInput{
		TableName:                 table,
		Item:                      with(key("Acme", 1), "Awards", number(0)),
		ConditionExpression:       isLess.Condition(),
		ExpressionAttributeNames:  isLess.Names(),
		ExpressionAttributeValues: isLess.Values(),
	})
	var fails *dynamodb.ConditionalCheckFailedException
	wants("a condition that fails", errors.As(err, &fails) && fails.Message() != "", true)
	wants("its status and code", refusal(err), "400 "+dynamodb.ErrCodeConditionalCheckFailedException)
	wants("and nothing was put", get("Acme", 1)["Awards"], number(2))

	changed, err := expression.NewBuilder().
		WithUpdate(expression.
			Set(expression.Name("Songs"), expression.ListAppend(
				expression.IfNotExists(expression.Name("Songs"), expression.Value(&value{L: []*value{}})),
				expression.Value([]string{"One", "Two"}))).
			Set(expression.Name("Place"), expression.Value(map[string]string{"City": "Oslo", "Country": "Norway"})).
			Add(expression.Name("Awards"), expression.Value(1))).
		WithCondition(expression.And(
			expression.Name("Awards").Equal(expression.Value(2)),
			expression.Name("Place").AttributeNotExists())).Build()
	must(err)
	update := &dynamodb.UpdateItemInput{
		TableName:                 table,
		Key:                       key("Acme", 1),
		UpdateExpression:          changed.Update(),
		ConditionExpression:       changed.Condition(),
		ExpressionAttributeNames:  changed.Names(),
		ExpressionAttributeValues: changed.Values(),
		ReturnValues:              aws.String(dynamodb.ReturnValueAllNew),
	}
	got, err := db.UpdateItem(update)
	must(err)
	all := with(key("Acme", 1), "Awards", number(3))
	all["Songs"] = &value{L: []*value{text("One"), text("Two")}}
	all["Place"] = &value{M: item{"City": text("Oslo"), "Country": text("Norway")}}
	wants("UpdateItem", got.Attributes, all)
	_, err = db.UpdateItem(update)
	wants("the same again", errors.As(err, &fails), true)

	parts, err := expression.NewBuilder().WithProjection(
		expression.NamesList(expression.Name("Place.City"), expression.Name("Songs[1]"), expression.Name("Nothing"))).Build()
	must(err)
	some, err := db.GetItem(&dynamodb.GetItemInput{
		TableName:                table,
		Key:                      key("Acme", 1),
		ConsistentRead:           aws.Bool(true),
		ProjectionExpression:     parts.Projection(),
		ExpressionAttributeNames: parts.Names(),
	})
	must(err)
	wants("parts of an item", some.Item, item{"Place": {M: item{"City": text("Oslo")}}, "Songs": {L: []*value{text("Two")}}})
}

func putsHundred() {
	for n := 0; n < 100; n++ {
		one := with(key("pages", n), "Label", text("label"+strconv.Itoa(n%5)))
		put(with(with(one, "Song", text("song "+strconv.Itoa(n))), "Extra", number(n)))
	}
	wants("the last of a hundred puts", get("pages", 99)["Song"], text("song 99"))
}

// queries asks for some of the hundred by their RANGE values, or for those of one label.
func queries(condition expression.KeyConditionBuilder) *dynamodb.QueryInput {
	built, err := expression.NewBuilder().WithKeyCondition(condition).Build()
	must(err)
	return &dynamodb.QueryInput{
		TableName:                 table,
		KeyConditionExpression:    built.KeyCondition(),
		ExpressionAttributeNames:  built.Names(),
		ExpressionAttributeValues: built.Values(),
	}
}

func queriesByPages() {
	artist := expression.Key("Artist").Equal(expression.Value("pages"))
	between := expression.Key("Year").Between(expression.Value(20), expression.Value(59))
	asked := queries(artist.And(between)).SetLimit(7)
	wanted := []int{}
	for n := 20; n <= 59; n++ {
		wanted = append(wanted, n)
	}
	found, sizes := []int{}, []int{}
	must(db.QueryPages(asked, func(page *dynamodb.QueryOutput, last bool) bool {
		found = append(found, years(page.Items)...)
		sizes = append(sizes, len(page.Items))
		return len(sizes) < 20
	}))
	wants("QueryPages", found, wanted)
	wants("its pages", sizes, []int{7, 7, 7, 7, 7, 5})

	// By hand, backward, with ExclusiveStartKey.
	backward := []int{}
	asked = queries(artist.And(between)).SetLimit(8).SetScanIndexForward(false)
	for pages := 0; pages < 20; pages++ {
		page, err := db.Query(asked)
		must(err)
		backward = append(backward, years(page.Items)...)
		if len(page.LastEvaluatedKey) == 0 {
			break
		}
		asked.ExclusiveStartKey = page.LastEvaluatedKey
	}
	sort.Sort(sort.Reverse(sort.IntSlice(wanted)))
	wants("page by page by hand, backward", backward, wanted)
}

func queriesIndex() {
	asked := queries(expression.Key("Label").Equal(expression.Value("label3"))).SetIndexName("ByLabel").SetLimit(6)
	found, first := []int{}, item(nil)
	must(db.QueryPages(asked, func(page *dynamodb.QueryOutput, last bool) bool {
		if first == nil && len(page.Items) > 0 {
			first = page.Items[0]
		}
		found = append(found, years(page.Items)...)
		return len(found) < 100
	}))
	wants("a query of the index", found, yearsBy(3))
	wants("what the index shows", first, with(with(key("pages", 3), "Label", text("label3")), "Song", text("song 3")))
}

func scansByPages() {
	counted, err := db.Scan(&dynamodb.ScanInput{TableName: table, Select: aws.String(dynamodb.SelectCount)})
	must(err)
	seen, largest, all := map[string]bool{}, 0, 0
	must(db.ScanPages(&dynamodb.ScanInput{TableName: table, Limit: aws.Int64(9)}, func(page *dynamodb.ScanOutput, last bool) bool {
		for n, year := range years(page.Items) {
			seen[aws.StringValue(page.Items[n]["Artist"].S)+strconv.Itoa(year)] = true
		}
		if len(page.Items) > largest {
			largest = len(page.Items)
		}
		all += len(page.Items)
		return all < 1000
	}))
	wants("ScanPages", []int{all, len(seen)}, []int{103, 103})
	wants("its largest page", largest, 9)
	wants("how many there are", aws.Int64Value(counted.Count), int64(103))

	built, err := expression.NewBuilder().WithFilter(expression.Name("Extra").In(expression.Value(5), expression.Value(95))).Build()
	must(err)
	filtered, err := db.Scan(&dynamodb.ScanInput{
		TableName:                 table,
		FilterExpression:          built.Filter(),
		ExpressionAttributeNames:  built.Names(),
		ExpressionAttributeValues: built.Values(),
	})
	must(err)
	found := years(filtered.Items)
	sort.Ints(found)
	wants("a scan with a filter", found, []int{5, 95})
}

func writesBatches() {
	writes := []*dynamodb.WriteRequest{}
	keys := []item{}
	for n := 0; n < 25; n++ {
		one := &dynamodb.PutRequest{Item: with(key("batch", n), "Awards", number(n))}
		writes = append(writes, &dynamodb.WriteRequest{PutRequest: one})
		keys = append(keys, key("batch", n))
	}
	written, err := db.BatchWriteItem(&dynamodb.BatchWriteItemInput{RequestItems: map[string][]*dynamodb.WriteRequest{*table: writes}})
	must(err)
	wants("BatchWriteItem", len(written.UnprocessedItems), 0)
	gone := []*dynamodb.WriteRequest{{DeleteRequest: &dynamodb.DeleteRequest{Key: key("batch", 7)}}}
	_, err = db.BatchWriteItem(&dynamodb.BatchWriteItemInput{RequestItems: map[string][]*dynamodb.WriteRequest{*table: gone}})
	must(err)

	asked := &dynamodb.BatchGetItemInput{RequestItems: map[string]*dynamodb.KeysAndAttributes{*table: {
		Keys:                     keys,
		ProjectionExpression:     aws.String("#y, Awards"),
		ExpressionAttributeNames: aws.StringMap(map[string]string{"#y": "Year"}),
	}}}
	found, pages, left := []int{}, 0, 0
	must(db.BatchGetItemPages(asked, func(page *dynamodb.BatchGetItemOutput, last bool) bool {
		found = append(found, years(page.Responses[*table])...)
		left += len(page.UnprocessedKeys)
		pages++
		return pages < 5
	}))
	sort.Ints(found)
	wanted := []int{}
	for n := 0; n < 25; n++ {
		if n != 7 {
			wanted = append(wanted, n)
		}
	}
	wants("BatchGetItem", found, wanted)
	wants("in one page, nothing left", []int{pages, left}, []int{1, 0})
}

// follow reads the records from an iterator on, page by page, until a page has none.
func follow(iterator *string, limit int64) []*dynamodbstreams.Record {
	records := []*dynamodbstreams.Record{}
	for pages := 0; pages < 500 && iterator != nil; pages++ {
		page, err := streams.GetRecords(&dynamodbstreams.GetRecordsInput{ShardIterator: iterator, Limit: aws.Int64(limit)})
		must(err)
		if len(page.Records) == 0 {
			break
		}
		records = append(records, page.Records...)
		iterator = page.NextShardIterator
	}
	return records
}

func eventsOf(records []*dynamodbstreams.Record) []string {
	names := []string{}
	for _, record := range records {
		names = append(names, aws.StringValue(record.EventName))
	}
	return names
}

func followsStream() {
	listed, err := streams.ListStreams(&dynamodbstreams.ListStreamsInput{TableName: table})
	must(err)
	wants("ListStreams", len(listed.Streams), 1)
	arn := listed.Streams[0].StreamArn
	told, err := streams.DescribeStream(&dynamodbstreams.DescribeStreamInput{StreamArn: arn})
	must(err)
	described := told.StreamDescription
	wants("DescribeStream", []string{*described.TableName, *described.StreamStatus, *described.StreamViewType},
		[]string{*table, dynamodbstreams.StreamStatusEnabled, dynamodbstreams.StreamViewTypeNewAndOldImages})
	wants("its shards", len(described.Shards), 1)
	place := func(kind string) *string {
		got, err := streams.GetShardIterator(&dynamodbstreams.GetShardIteratorInput{
			StreamArn: arn, ShardId: described.Shards[0].ShardId, ShardIteratorType: aws.String(kind)})
		must(err)
		return got.ShardIterator
	}
	latest := place(dynamodbstreams.ShardIteratorTypeLatest)
	wants("nothing new", len(follow(latest, 10)), 0)
	put(with(key("followed", 1), "Awards", number(1)))
	put(with(key("followed", 1), "Awards", number(2)))
	_, err = db.DeleteItem(&dynamodb.DeleteItemInput{TableName: table, Key: key("followed", 1)})
	must(err)
	records := follow(latest, 2)
	wants("GetRecords", eventsOf(records), []string{"INSERT", "MODIFY", "REMOVE"})
	changed := records[1].Dynamodb
	wants("the key", changed.Keys, key("followed", 1))
	wants("the old item", changed.OldImage, with(key("followed", 1), "Awards", number(1)))
	wants("the new item", changed.NewImage, with(key("followed", 1), "Awards", number(2)))
	wants("its moment", isRecent(changed.ApproximateCreationDateTime), true)
	whole := follow(place(dynamodbstreams.ShardIteratorTypeTrimHorizon), 40)
	wants("the first of the stream", whole[0].Dynamodb.Keys, key("of all kinds", -7))
	wants("and the last", whole[len(whole)-1], records[2])
	wants("all of the stream", len(whole) > 100, true)

	_, err = streams.GetRecords(&dynamodbstreams.GetRecordsInput{ShardIterator: aws.String("x")})
	wants("a bad iterator", refusal(err), "400 ValidationException")
	_, err = streams.DescribeStream(&dynamodbstreams.DescribeStreamInput{StreamArn: aws.String(*arn + "0")})
	wants("no such stream", refusal(err), "400 ResourceNotFoundException")
}

func tellsErrors() {
	none := aws.String("GoMusik")
	_, err := db.GetItem(&dynamodb.GetItemInput{TableName: none, Key: key("a", 1)})
	var notFound *dynamodb.ResourceNotFoundException
	wants("no such table", errors.As(err, &notFound), true)
	wants("its status and code", refusal(err), "400 "+dynamodb.ErrCodeResourceNotFoundException)
	_, err = db.DescribeTable(&dynamodb.DescribeTableInput{TableName: none})
	wants("none to describe", errors.As(err, &notFound), true)
	_, err = db.PutItem(&dynamodb.PutItemInput{TableName: table, Item: key("", 1)})
	wants("a bad key", refusal(err), "400 ValidationException")
	_, err = db.PutItem(&dynamodb.PutItemInput{TableName: table, Item: item{"Artist": text("a"), "Year": text("1")}})
	wants("a key of another kind", refusal(err), "400 ValidationException")
	_, err = db.Query(&dynamodb.QueryInput{TableName: table, KeyConditionExpression: aws.String("Artist =")})
	wants("a bad expression", refusal(err), "400 ValidationException")
	_, err = db.TransactWriteItems(&dynamodb.TransactWriteItemsInput{TransactItems: []*dynamodb.TransactWriteItem{
		{Put: &dynamodb.Put{TableName: table, Item: key("transaction", 1)}}}})
	wants("an operation that isn't there", refusal(err), "400 UnknownOperationException")
}

// raisesCounter has eight goroutines that share the client. A request isn't repeated here, since it would count twice.
func raisesCounter() {
	once := dynamodb.New(session.Must(session.NewSession(&db.Config)), &aws.Config{MaxRetries: aws.Int(0)})
	ended := make(chan error, 80)
	var all sync.WaitGroup
	for n := 0; n < 8; n++ {
		all.Add(1)
		go func() {
			defer all.Done()
			for n := 0; n < 10; n++ {
				_, err := once.UpdateItem(&dynamodb.UpdateItemInput{
					TableName:                 table,
					Key:                       key("counter", 0),
					UpdateExpression:          aws.String("ADD Raised :one"),
					ExpressionAttributeValues: item{":one": number(1)},
				})
				ended <- err
			}
		}()
	}
	all.Wait()
	close(ended)
	for err := range ended {
		must(err)
	}
	wants("a counter of eight goroutines", get("counter", 0)["Raised"], number(80))
}

func listsAndDeletes() {
	second := music()
	second.TableName = aws.String("GoSecond")
	second.StreamSpecification = nil
	_, err := db.CreateTable(second)
	must(err)
	names := []string{}
	must(db.ListTablesPages(&dynamodb.ListTablesInput{Limit: aws.Int64(1)}, func(page *dynamodb.ListTablesOutput, last bool) bool {
		for _, name := range aws.StringValueSlice(page.TableNames) {
			if strings.HasPrefix(name, "Go") {
				names = append(names, name)
			}
		}
		return true
	}))
	wants("ListTables by pages", names, []string{"GoMusic", "GoSecond"})
	for _, name := range names {
		gone, err := db.DeleteTable(&dynamodb.DeleteTableInput{TableName: aws.String(name)})
		must(err)
		wants("DeleteTable", aws.StringValue(gone.TableDescription.TableStatus), dynamodb.TableStatusDeleting)
		must(db.WaitUntilTableNotExists(&dynamodb.DescribeTableInput{TableName: aws.String(name)}))
	}
}

func main() {
	settings := &aws.Config{
		Endpoint:    aws.String("http://127.0.0.1:" + os.Args[1]),
		Region:      aws.String("local"),
		Credentials: credentials.NewStaticCredentials("any", "any", ""),
		HTTPClient:  &http.Client{Timeout: 120 * time.Second, Transport: &http.Transport{}},
		MaxRetries:  aws.Int(3),
	}
	db = dynamodb.New(session.Must(session.NewSession(settings)))
	streams = dynamodbstreams.New(session.Must(session.NewSession(settings)))
	part("a table", makesTable)
	part("values", readsAllKinds)
	part("changes", changesItems)
	part("a hundred puts", putsHundred)
	part("queries", queriesByPages)
	part("the index", queriesIndex)
	part("scans", scansByPages)
	part("batches", writesBatches)
	part("the stream", followsStream)
	part("errors", tellsErrors)
	part("goroutines", raisesCounter)
	part("tables", listsAndDeletes)
	fmt.Printf("go: %d passed, %d failed\n", passed, failed)
	if failed > 0 {
		os.Exit(1)
	}
}
