// What Google's own client reads of a server: a session through its read streams at once, one that is split while it is
// read, one that is read on behind a call that was broken off, and a snapshot.
//
//	google_read HOST:PORT TABLE RESTRICTION COLUMN,COLUMN SECONDS NANOSECONDS
//
// The snapshot is that of the moment which the last two words name. It prints an object of JSON, with the responses in
// the order in which they came; their rows are in base64.
package main

import (
	"context"
	"encoding/json"
	"io"
	"log"
	"os"
	"strconv"
	"strings"
	"sync"
	"time"

	storage "cloud.google.com/go/bigquery/storage/apiv1"
	"github.com/golang/protobuf/ptypes/timestamp"
	"google.golang.org/api/option"
	storagepb "google.golang.org/genproto/googleapis/cloud/bigquery/storage/v1"
	"google.golang.org/grpc"
)

// A response of ReadRows.
type response struct {
	Rows  []byte
	Count int64
}

// What is printed.
type report struct {
	Schema                    string
	Several                   [][]response
	Whole, Primary, Remainder []response
	Broken, Resumed           []response
	Earlier                   []response
}

// A client, and the sessions that it asks for.
type reader struct {
	*storage.BigQueryReadClient
	table, restriction string
	columns            []string
}

func check(err error) {
	if err != nil {
		log.Fatal(err)
	}
}

// number reads one of the words.
func number(word string) int64 {
	value, err := strconv.ParseInt(word, 10, 64)
	check(err)
	return value
}

// session begins one of so many read streams, over the rows that are visible now or were at that moment.
func (r *reader) session(ctx context.Context, streams int32, moment *timestamp.Timestamp) *storagepb.ReadSession {
	session := &storagepb.ReadSession{
		Table:       r.table,
		DataFormat:  storagepb.DataFormat_AVRO,
		ReadOptions: &storagepb.ReadSession_TableReadOptions{SelectedFields: r.columns, RowRestriction: r.restriction},
	}
	if moment != nil {
		session.TableModifiers = &storagepb.ReadSession_TableModifiers{SnapshotTime: moment}
	}
	made, err := r.CreateReadSession(ctx, &storagepb.CreateReadSessionRequest{
		Parent: strings.Join(strings.Split(r.table, "/")[:2], "/"), ReadSession: session, MaxStreamCount: streams})
	check(err)
	return made
}

// begin begins to read a read stream at an offset.
func (r *reader) begin(ctx context.Context, name string, offset int64) storagepb.BigQueryRead_ReadRowsClient {
	call, err := r.ReadRows(ctx, &storagepb.ReadRowsRequest{ReadStream: name, Offset: offset})
	check(err)
	return call
}

// next takes so many responses, or all that are left where that is 0.
func next(call storagepb.BigQueryRead_ReadRowsClient, most int) []response {
	taken := []response{}
	for most == 0 || len(taken) < most {
		came, err := call.Recv()
		if err == io.EOF {
			break
		}
		check(err)
		taken = append(taken, response{came.GetAvroRows().GetSerializedBinaryRows(), came.RowCount})
	}
	return taken
}

// several reads all read streams of a session at once.
func (r *reader) several(ctx context.Context, told *report) {
	session := r.session(ctx, 3, nil)
	told.Schema = session.GetAvroSchema().GetSchema()
	told.Several = make([][]response, len(session.Streams))
	var all sync.WaitGroup
	for at, stream := range session.Streams {
		all.Add(1)
		go func(at int, name string) {
			defer all.Done()
			told.Several[at] = next(r.begin(ctx, name, 0), 0)
		}(at, stream.Name)
	}
	all.Wait()
}

// split splits a read stream behind the first response of a call that reads it.
func (r *reader) split(ctx context.Context, told *report) {
	name := r.session(ctx, 1, nil).Streams[0].Name
	call := r.begin(ctx, name, 0)
	told.Whole = next(call, 1)
	halves, err := r.SplitReadStream(ctx, &storagepb.SplitReadStreamRequest{Name: name})
	check(err)
	told.Whole = append(told.Whole, next(call, 0)...)
	told.Primary = next(r.begin(ctx, halves.PrimaryStream.Name, 0), 0)
	told.Remainder = next(r.begin(ctx, halves.RemainderStream.Name, 0), 0)
}

// broken breaks a call off behind its first response, and reads on from there by another.
func (r *reader) broken(ctx context.Context, told *report) {
	name := r.session(ctx, 1, nil).Streams[0].Name
	short, breakOff := context.WithCancel(ctx)
	told.Broken = next(r.begin(short, name, 0), 1)
	breakOff()
	told.Resumed = next(r.begin(ctx, name, told.Broken[0].Count), 0)
}

func main() {
	ctx, cancel := context.WithTimeout(context.Background(), 60*time.Second)
	defer cancel()
	words := os.Args[1:]
	client, err := storage.NewBigQueryReadClient(ctx, option.WithEndpoint(words[0]), option.WithoutAuthentication(),
		option.WithGRPCDialOption(grpc.WithInsecure()))
	check(err)
	defer client.Close()
	r := &reader{client, words[1], words[2], strings.Split(words[3], ",")}
	told := &report{}
	r.several(ctx, told)
	r.split(ctx, told)
	r.broken(ctx, told)
	moment := &timestamp.Timestamp{Seconds: number(words[4]), Nanos: int32(number(words[5]))}
	told.Earlier = next(r.begin(ctx, r.session(ctx, 1, moment).Streams[0].Name, 0), 0)
	check(json.NewEncoder(os.Stdout).Encode(told))
}
