// Reads a table of a server through several read streams at once, one of which is split before.
//
//	read HOST:PORT [TABLE]
//
// The table is that of append.go, where none is named; five rows are appended first. It does what ../read.py does, and
// prints the same. ./build builds it.
package main

import (
	"context"
	"fmt"
	"io"
	"log"
	"os"
	"strings"
	"sync"
	"time"

	"bqstored/fruitpb"
	"bqstored/storagepb"

	"github.com/linkedin/goavro"
	"google.golang.org/grpc"
	"google.golang.org/protobuf/proto"
	"google.golang.org/protobuf/reflect/protodesc"
)

type fruit = fruitpb.Fruit

// A client of both services, with the table and the time by which it wants to be done.
type client struct {
	storagepb.BigQueryReadClient
	storagepb.BigQueryWriteClient
	ctx   context.Context
	table string
}

// append adds rows to the default stream, whose rows are seen at once.
func (c *client) append(rows []*fruit) {
	data := &storagepb.AppendRowsRequest_ProtoData{
		WriterSchema: &storagepb.ProtoSchema{
			ProtoDescriptor: protodesc.ToDescriptorProto((&fruit{}).ProtoReflect().Descriptor())},
		Rows: &storagepb.ProtoRows{},
	}
	for _, row := range rows {
		serialized, err := proto.Marshal(row)
		check(err)
		data.Rows.SerializedRows = append(data.Rows.SerializedRows, serialized)
	}
	call, err := c.AppendRows(c.ctx)
	check(err)
	check(call.Send(&storagepb.AppendRowsRequest{
		WriteStream: c.table + "/_default", Rows: &storagepb.AppendRowsRequest_ProtoRows{ProtoRows: data}}))
	check(call.CloseSend())
	for {
		response, err := call.Recv()
		if err == io.EOF {
			return
		}
		check(err)
		if failed := response.GetError(); failed != nil {
			log.Fatal(failed.Message)
		}
	}
}

// session begins one over the rows that are visible now, and over none that comes later.
func (c *client) session(restriction string, columns []string, streams int32) *storagepb.ReadSession {
	project := strings.Join(strings.Split(c.table, "/")[:2], "/")
	session, err := c.CreateReadSession(c.ctx, &storagepb.CreateReadSessionRequest{
		Parent:         project,
		MaxStreamCount: streams,
		ReadSession: &storagepb.ReadSession{
			Table:       c.table,
			DataFormat:  storagepb.DataFormat_AVRO,
			ReadOptions: &storagepb.ReadSession_TableReadOptions{SelectedFields: columns, RowRestriction: restriction},
		},
	})
	check(err)
	return session
}

// split gives the read streams into which this one is split, or itself where it is too short.
func (c *client) split(name string) []string {
	response, err := c.SplitReadStream(c.ctx, &storagepb.SplitReadStreamRequest{Name: name})
	check(err)
	if response.PrimaryStream == nil {
		return []string{name}
	}
	return []string{response.PrimaryStream.Name, response.RemainderStream.Name}
}

// read gives the rows of a read stream from an offset on, as they are printed; who was cut off behind some rows goes on
// there. The first response has the schema.
func (c *client) read(name string, offset int64) string {
	call, err := c.ReadRows(c.ctx, &storagepb.ReadRowsRequest{ReadStream: name, Offset: offset})
	check(err)
	var codec *goavro.Codec
	shown := ""
	for {
		response, err := call.Recv()
		if err == io.EOF {
			return shown
		}
		check(err)
		if schema := response.GetAvroSchema(); schema != nil {
			codec, err = goavro.NewCodec(schema.Schema)
			check(err)
		}
		rest := response.GetAvroRows().GetSerializedBinaryRows()
		for i := int64(0); i < response.RowCount; i++ {
			var datum interface{}
			datum, rest, err = codec.NativeFromBinary(rest)
			check(err)
			row := datum.(map[string]interface{})
			// A value that may be NULL comes as nil, or behind the name of its type.
			name, _ := row["name"].(map[string]interface{})
			shown += fmt.Sprintf(" %d %v,", row["id"], name["string"])
		}
	}
}

// readAll reads streams at once.
func (c *client) readAll(names []string) []string {
	parts := make([]string, len(names))
	var group sync.WaitGroup
	for i := range names {
		group.Add(1)
		go func(i int) {
			defer group.Done()
			parts[i] = c.read(names[i], 0)
		}(i)
	}
	group.Wait()
	return parts
}

func (c *client) play() {
	var rows []*fruit
	for n, name := range []string{"apple", "pear", "quince", "plum", "fig"} {
		rows = append(rows, &fruit{Id: proto.Int64(int64(n)), Name: proto.String(name), Ripe: proto.Bool(n%2 == 0)})
	}
	c.append(rows)
	session := c.session("id != 3", []string{"id", "name"}, 2)
	fmt.Println(session.Name)
	c.append([]*fruit{{Id: proto.Int64(5), Name: proto.String("late")}})
	streams := c.split(session.Streams[0].Name)
	for _, other := range session.Streams[1:] {
		streams = append(streams, other.Name)
	}
	for i, part := range c.readAll(streams) {
		fmt.Printf("  stream %s:%s\n", streams[i][strings.LastIndex(streams[i], "/")+1:], part)
	}
	fmt.Printf("  the last one from its second row on:%s\n", c.read(streams[len(streams)-1], 1))
}

func check(err error) {
	if err != nil {
		log.Fatal(err)
	}
}

func main() {
	log.SetFlags(0)
	log.SetPrefix("read: ")
	if len(os.Args) != 2 && len(os.Args) != 3 {
		log.Fatal("read HOST:PORT [TABLE]")
	}
	table := "projects/shop/datasets/stock/tables/fruit"
	if len(os.Args) == 3 {
		table = os.Args[2]
	}
	ctx, cancel := context.WithTimeout(context.Background(), time.Minute)
	defer cancel()
	channel, err := grpc.DialContext(ctx, os.Args[1], grpc.WithInsecure())
	check(err)
	defer channel.Close()
	c := &client{storagepb.NewBigQueryReadClient(channel), storagepb.NewBigQueryWriteClient(channel), ctx, table}
	c.play()
}
